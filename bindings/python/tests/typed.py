"""What users write, for mypy in its strict mode, which bindings/test runs on this file. It must find an error in each line with
`type: ignore`: where there is none, the comment is an error itself."""

from typing import List, Optional, Type

import cukvashe_des
from cukvashe_des import Cfb, Cipher, Ctr, DukptTerminal, Error, KeyBlockHeader, Mac, Stream, TdesEde3, VerificationError


def plain_of(cipher: Cipher, iv: bytes, data: bytes) -> bytes:
    return cukvashe_des.unpad(cipher.decrypt_cbc(data, iv=iv), "pkcs7")


def change(cipher: Cipher, iv: bytes, pieces: List[bytearray]) -> bytes:
    for piece in pieces:
        iv = cipher.decrypt_cbc_into(piece, iv=iv)
    return iv


def column(cipher: Cipher, vectors: memoryview, blocks: memoryview) -> bytes:
    counts = (1 for _ in range(len(vectors) // 8))
    return cukvashe_des.decrypt_cbc_records(cipher, blocks, vectors=vectors, counts=counts)


def of_mysql(password: bytes, values: List[Optional[bytes]]) -> List[Optional[bytes]]:
    try:
        return cukvashe_des.mysql_decrypt_values(password, values)
    except cukvashe_des.UnreadableValuesError as error:
        first: Error = error.faults[min(error.faults)]
        return error.texts if isinstance(first, ValueError) else []


def decrypted(stream: Stream, pieces: List[bytes]) -> bytes:
    return b"".join(map(stream.copy().decrypt, pieces))


def part(cipher: Cipher, counter: bytes, data: bytearray) -> Ctr:
    stream = Ctr(cipher, counter=counter).copy()
    stream.seek(8)
    stream.decrypt_into(data)
    return stream


def with_class(kind: Type[Cipher], key: bytes) -> Cipher:
    with kind(key, no_tables=True) as cipher:
        return cipher


def is_right(mac: Mac, tag: bytes) -> bool:
    try:
        mac.copy().verify(tag)
    except VerificationError:
        return False
    return True


def tags(kind: Type[Mac], key: bytes, messages: List[bytes]) -> bytes:
    return cukvashe_des.macs(kind, key, None, map(len, messages), b"".join(messages))


def opened(data: bytes, iterations: Optional[int]) -> Optional[str]:
    try:
        return cukvashe_des.open_salted(TdesEde3, bytearray(b"password"), data, iterations=iterations).decode()
    except (Error, UnicodeDecodeError):
        return None


def moved(protection: bytes, block: str) -> str:
    header, key = cukvashe_des.unwrap_key_block(protection, block)
    optional = [pair for pair in cukvashe_des.key_block_optional_blocks(block) if pair[0] != "PB"]
    return cukvashe_des.wrap_key_block(protection, header, key, optional=optional)


def next_pin_key(terminal: DukptTerminal, header: KeyBlockHeader) -> Optional[bytes]:
    serial, key = terminal.next_key()
    return cukvashe_des.dukpt_pin_key(key) if header.usage == "P0" and serial else None


def refused(cipher: Cipher, iv: bytes, data: bytes) -> None:
    cipher.decrypt_cbc(iv, data)  # type: ignore
    cipher.decrypt_cbc(data)  # type: ignore
    cipher.decrypt_cbc_into(data, iv=iv)  # type: ignore
    cipher.encrypt_ctr(data, iv)  # type: ignore
    cipher.encrypt_cfb(data, iv=iv)  # type: ignore
    Cfb(cipher, iv=iv)  # type: ignore
    cukvashe_des.decrypt_cbc_records(cipher, iv, [1], data)  # type: ignore
    TdesEde3("0123456789abcdef" * 3)  # type: ignore
    if cukvashe_des.pvv_verify(data, "4123456789012345", 1, "1234", "1894"):  # type: ignore
        cukvashe_des.pad(data)  # type: ignore
