"""`des_encrypt` and `des_decrypt` of MariaDB beside ours, both ways: under key strings, and under the keys of its file."""

from cases import chance, same, some, texts
from library import TdesEde3, read_mysql, read_mysql_by_file, write_mysql, write_mysql_by_number
from servers import MariaDb

KEYS = [b"", b"k", b"secret key", "Schlüssel €".encode(), b"\0with zero bytes\0", *(some(1, 90) for _ in range(6))]
# The server takes the first number as its default.
FILE = b"""# keys of a test
3 three
0 key_zero
1   another key

7seven
9\t\xa0tab and blanks \x01\x9d
1 the one that counts
5 \xe9t\xe9\xff\r
0
8 without an end, which the server does not read"""
KEYS_OF_FILE = {0: b"key_zero", 1: b"the one that counts", 3: b"three", 5: b"\xe9t\xe9\xff", 7: b"seven", 9: b"tab and blanks"}
# Each byte before a key and behind it.
BYTES = (b"".join(b"%d%ca\n%d a%c\n" % (at, first + at, at + 5, first + at) for at in range(5)) for first in range(0, 255, 5))
# Lines whose keys the server takes in a way of its own, or not at all. Its buffer has 1022 bytes.
LINES = (
    *BYTES,
    b"1\xffa\n6 a\xff\n",
    *(b"1 %s\n" % (b"x" * length) for length in (1018, 1019, 1020, 1021, 2500)),
    *(b"1 %s2 yy\n" % (b"x" * length) for length in (1019, 1020, 1021, 2042)),
    *(b"", b"1 a", b"1\n", b"1 \n", b"12 a\n", b" 1 a\n", b"#1 a\n", b"\n1 a\n", b"\xef\xbb\xbf1 a\n2 b\n"),
    *(b"1 a\n1 b\n1\n", b"1 a\0b\n2 \0\n"),
)


def digits(data):
    return f"unhex('{data.hex()}')"


def encrypted(server, column, argument):
    return server.values([f"hex(des_encrypt({digits(text)}{argument}))" for text in column])


def decrypted(server, column, argument):
    """The server's answers, with the errors of ours where there is no text: it gives back what is not encrypted."""
    answers = server.values([f"hex(des_decrypt({digits(value)}{argument}))" for value in column])

    def named(answer, value):
        if answer is None:
            return "PaddingMismatchError"
        return "NotEncryptedError" if answer == value != b"" else answer

    return list(map(named, answers, column))


def wrong():
    """Bytes of each length from 0 to 40 that nobody encrypted, each first byte, and many that the server decrypts."""
    column = [chance.randbytes(length) for length in range(41)]
    column += [bytes([first]) + chance.randbytes(8) for first in range(256)]
    return column + [bytes([chance.randint(128, 255)]) + chance.randbytes(8 * chance.randint(1, 4)) for _ in range(400)]


def key_files(server):
    """How many numbers of key files were compared. For all that a file lacks the server takes a key of zeros."""
    absent = TdesEde3(bytes(24)).encrypt_cbc(b"1234567\1", iv=bytes(8))
    calls = [f"hex(des_encrypt('1234567', {number}))" for number in range(10)]
    for lines in LINES:
        server.take_keys(lines)
        values = server.values(calls)
        texts = ["KeyNumberError" if value[1:] == absent else b"1234567" for value in values]
        same(f"a key file with {lines[:20]}", read_mysql_by_file(values, lines), texts)
    return len(LINES) * len(calls)


def main():
    count = 0
    with MariaDb(FILE) as server:
        for key in KEYS:
            column, argument = list(texts()), f", {digits(key)}"
            values = encrypted(server, column, argument)
            count += same("des_encrypt", write_mysql(column, key), values)
            count += same("des_decrypt", read_mysql(values, key), column)
            count += same("des_decrypt of what is written here", decrypted(server, write_mysql(column, key), argument), column)
        column = wrong()
        count += same("des_decrypt of other bytes", read_mysql(column, KEYS[2]), decrypted(server, column, f", {digits(KEYS[2])}"))
        for number, key in KEYS_OF_FILE.items():
            column = list(texts())
            values = encrypted(server, column, f", {number}")
            count += same(f"des_encrypt under key {number}", write_mysql_by_number(column, key, number), values)
            count += same(f"des_decrypt under key {number}", read_mysql_by_file(values, FILE), column)
        column = list(texts())
        count += same("the default key", read_mysql_by_file(encrypted(server, column, ""), FILE), column)
        column = [bytes([128 + chance.choice(list(KEYS_OF_FILE))]) + value[1:] for value in wrong()[-400:]]
        count += same("other bytes under keys of the file", read_mysql_by_file(column, FILE), decrypted(server, column, ""))
        count += key_files(server)
    print(f"MariaDB: {count} values compared")


main()
