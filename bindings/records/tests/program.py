"""Columns of MariaDB and PostgreSQL as their clients print them, through `cukvashe decrypt-lines`: program.py CUKVASHE SERVERS.

SERVERS are mariadb, postgresql or both."""

import subprocess
import sys
import tempfile

from cases import same, words
from servers import MariaDb, PostgreSql

SECRET = "a key string of 24 bytes"


def rows():
    """Texts of each length from 0 to 40, which SQL takes between apostrophes, and their rows."""
    texts = [words(length, length).replace("'", "*").replace("\\", "/") for length in range(41)]
    return texts, ", ".join(f"({place}, '{text}')" for place, text in enumerate(texts))


def decrypted(kind, lines):
    """The lines that the program makes of what a client printed."""
    with tempfile.NamedTemporaryFile("w") as file:
        file.write(SECRET)
        file.flush()
        arguments = [sys.argv[1], "decrypt-lines", kind, "--password-file", file.name]
        done = subprocess.run(arguments, input=lines, capture_output=True, text=True, check=False)
    if done.returncode != 0:
        sys.exit(f"program.py: {kind}: status {done.returncode}: {done.stderr}")
    return done.stdout.split("\n")[:-1]


def of_mariadb():
    texts, values = rows()
    with MariaDb(b"") as server:
        server.run("create database test; create table test.texts (place int, text varbinary(99))")
        server.run(f"insert into test.texts values {values}, ({len(texts)}, null)")
        lines = server.client(f"select hex(des_encrypt(text, '{SECRET}')) from test.texts order by place").stdout
    return same("MariaDB's lines", decrypted("mysql", lines), [*texts, "NULL"])


def of_postgresql():
    texts, values = rows()
    with PostgreSql("") as server:
        server.run("create table texts (place int, text text)")
        server.run(f"insert into texts values {values}")
        lines = server.client(f"select encrypt(convert_to(text, 'utf8'), '{SECRET}', '3des') from texts order by place").stdout
    return same("PostgreSQL's lines", decrypted("3des", lines), texts)


def main():
    count = sum({"mariadb": of_mariadb, "postgresql": of_postgresql}[server]() for server in sys.argv[2:])
    print(f"cukvashe decrypt-lines: {count} lines of servers")


main()
