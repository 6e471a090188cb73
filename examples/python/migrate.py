"""What replaces the triple DES of PyCryptodome and of `cryptography`. Each is compared, where that package is installed."""

from cukvashe_des import CmacTdesEde3, TdesEde2, TdesEde3, pad, pbkdf2, unpad

# NIST SP 800-67, Appendix B, has the key and the text, FIPS 81 the vector. OpenSSL made the ciphertext.
key = bytes.fromhex("0123456789abcdef23456789abcdef01456789abcdef0123")
pair = key[:16]
iv, text = bytes.fromhex("1234567890abcdef"), b"The qufck brown fox jump"
sealed = bytes.fromhex("38413d4ba2325cf1141f707471ac2ced57db530f0123b5acdda77ebde0c63614")


def pycryptodome() -> None:
    try:
        from Crypto.Cipher import DES3
        from Crypto.Hash import CMAC, SHA256
        from Crypto.Protocol.KDF import PBKDF2
        from Crypto.Util import Padding
    except ImportError:  # Debian's name for it
        from Cryptodome.Cipher import DES3
        from Cryptodome.Hash import CMAC, SHA256
        from Cryptodome.Protocol.KDF import PBKDF2
        from Cryptodome.Util import Padding

    cbc = DES3.new(key, DES3.MODE_CBC, iv=iv)
    assert cbc.encrypt(Padding.pad(text, 8)) == TdesEde3(key).encrypt_cbc(pad(text, "pkcs7"), iv=iv)
    cbc = DES3.new(key, DES3.MODE_CBC, iv=iv)
    assert Padding.unpad(cbc.decrypt(sealed), 8) == unpad(TdesEde3(key).decrypt_cbc(sealed, iv=iv), "pkcs7")
    assert DES3.new(key, DES3.MODE_ECB).encrypt(text) == TdesEde3(key).encrypt_ecb(text)
    # Its CFB has segments of 8 bits, if it is not told another number.
    cfb = DES3.new(key, DES3.MODE_CFB, iv=iv)
    assert cfb.encrypt(text) == TdesEde3(key).encrypt_cfb(text, iv=iv, segment_size=8)
    ctr = DES3.new(key, DES3.MODE_CTR, nonce=b"", initial_value=iv)
    assert ctr.encrypt(text) == TdesEde3(key).encrypt_ctr(text, counter=iv)
    # A key of two parts: there its length decides, here the class.
    assert DES3.new(pair, DES3.MODE_ECB).encrypt(text) == TdesEde2(pair).encrypt_ecb(text)
    assert CMAC.new(key, text, ciphermod=DES3).digest() == CmacTdesEde3(key, text).digest()
    derived = PBKDF2(b"password", b"salt", 24, 1000, hmac_hash_module=SHA256)
    assert derived == pbkdf2("sha256", b"password", b"salt", 1000, 24)


def cryptography() -> None:
    from cryptography.hazmat.primitives import cmac, hashes, padding
    from cryptography.hazmat.primitives.ciphers import Cipher, modes
    from cryptography.hazmat.primitives.kdf.pbkdf2 import PBKDF2HMAC

    try:
        from cryptography.hazmat.decrepit.ciphers.algorithms import TripleDES
    except ImportError:  # before version 43
        from cryptography.hazmat.primitives.ciphers.algorithms import TripleDES

    cbc, padder = Cipher(TripleDES(key), modes.CBC(iv)).encryptor(), padding.PKCS7(64).padder()
    theirs = cbc.update(padder.update(text) + padder.finalize()) + cbc.finalize()
    assert theirs == TdesEde3(key).encrypt_cbc(pad(text, "pkcs7"), iv=iv)
    cbc, unpadder = Cipher(TripleDES(key), modes.CBC(iv)).decryptor(), padding.PKCS7(64).unpadder()
    theirs = unpadder.update(cbc.update(sealed) + cbc.finalize()) + unpadder.finalize()
    assert theirs == unpad(TdesEde3(key).decrypt_cbc(sealed, iv=iv), "pkcs7")
    assert Cipher(TripleDES(key), modes.ECB()).encryptor().update(text) == TdesEde3(key).encrypt_ecb(text)
    # Its CFB has segments of 64 bits.
    cfb = Cipher(TripleDES(key), modes.CFB(iv)).encryptor()
    assert cfb.update(text) + cfb.finalize() == TdesEde3(key).encrypt_cfb(text, iv=iv, segment_size=64)
    # A key of two parts: there the first part stands once more at its end, here the class decides.
    assert Cipher(TripleDES(pair + pair[:8]), modes.ECB()).encryptor().update(text) == TdesEde2(pair).encrypt_ecb(text)
    mac = cmac.CMAC(TripleDES(key))
    mac.update(text)
    assert mac.finalize() == CmacTdesEde3(key, text).digest()
    theirs = PBKDF2HMAC(hashes.SHA256(), 24, b"salt", 1000).derive(b"password")
    assert theirs == pbkdf2("sha256", b"password", b"salt", 1000, 24)


assert TdesEde3(key).encrypt_cbc(pad(text, "pkcs7"), iv=iv) == sealed
for compare in (pycryptodome, cryptography):
    try:
        compare()
        print(f"{compare.__name__}: the same answers")
    except ImportError:
        print(f"{compare.__name__}: not installed")

# $ PYTHONPATH=bindings/python python3 examples/python/migrate.py
# pycryptodome: the same answers
# cryptography: the same answers
