"""Raw `encrypt` and `decrypt` of pgcrypto, over OpenSSL's own ciphers, beside ours, both ways: each type, keys of each length."""

from itertools import islice

from cases import SEED, chance, same, some, texts
from library import read_pgcrypto, write_pgcrypto
from servers import PostgreSql

# Single DES is in OpenSSL's legacy provider.
LEGACY = """openssl_conf = openssl_init
[openssl_init]
providers = provider_sect
[provider_sect]
default = on
legacy = on
[on]
activate = 1
"""
MODES, PADDINGS = ("", "-cbc", "-ecb"), ("", "/pad:pkcs", "/pad:none")
TYPES = [cipher + mode + padding for cipher in ("des", "3des") for mode in MODES for padding in PADDINGS]
# What raises an error becomes NULL.
ATTEMPT = """create function attempt(call text, data bytea, key bytea, iv bytea, type text) returns text as $$
declare answer bytea;
begin
  if iv = '' then execute format('select %I($1, $2, $3)', call) into answer using data, key, type;
  else execute format('select %I($1, $2, $3, $4)', call || '_iv') into answer using data, key, iv, type; end if;
  return encode(answer, 'hex');
exception when external_routine_invocation_exception then return null;
end $$ language plpgsql"""


def attempts(server, call, columns):
    """What the server answers to the data of columns, each a type, a key, a vector and data; an error as ours."""
    asked = [(data, key, iv, kind) for kind, key, iv, column in columns for data in column]
    calls = (f"attempt('{call}', '\\x{data.hex()}', '\\x{key.hex()}', '\\x{iv.hex()}', '{kind}')" for data, key, iv, kind in asked)
    answers = server.values(list(calls))
    return [fault(kind, data) if answer is None else answer for answer, (data, _, _, kind) in zip(answers, asked)]


def fault(kind, data):
    """Why ours does not read or write what the server refuses."""
    return "PaddingMismatchError" if data and len(data) % 8 == 0 else "BlockLengthError"


def of_ours(call, columns):
    """The same of ours."""
    return [answer for kind, key, iv, column in columns for answer in call(column, kind, key, iv)]


def main():
    columns = [(kind, some(1, 30), some(0, 10), list(texts())) for kind in TYPES]
    for kind in ("des", "3des"):
        columns += [(kind, chance.randbytes(size), some(0, 12), [some(0, 40) for _ in range(3)]) for size in range(41)]
    # Bytes that nobody encrypted.
    lengths = [*range(41), *[16] * 60]
    others = [(kind, key, iv, [chance.randbytes(length) for length in lengths]) for kind, key, iv, _ in columns[: len(TYPES)]]
    with PostgreSql(LEGACY) as server:
        server.run(ATTEMPT)
        values = attempts(server, "encrypt", columns)
        count = same("encrypt", of_ours(write_pgcrypto, columns), values)
        of_all = iter(values)
        of_each = [[value for value in islice(of_all, len(column)) if isinstance(value, bytes)] for *_, column in columns]
        written = [(kind, key, iv, values) for (kind, key, iv, _), values in zip(columns, of_each)]
        for read in (written, others):
            count += same("decrypt", of_ours(read_pgcrypto, read), attempts(server, "decrypt", read))
    print(f"pgcrypto: {count} values compared")


main()
