"""pgcrypto of PostgreSQL over the provider, and over OpenSSL's own: single DES, which OpenSSL 3 has in its legacy provider alone, works
again, and the answers are the same: pgcrypto.py MODULE OURS OWN.

OURS and OWN are configurations of OpenSSL, with the provider and with its own of single DES."""

import os
import random
import shutil
import sys
from pathlib import Path

sys.dont_write_bytecode = True
sys.path.insert(0, str(Path(__file__).resolve().parents[2] / "records/tests"))

from servers import PostgreSql

TYPES = [cipher + mode + padding for cipher in ("des", "3des") for mode in ("-cbc", "-ecb") for padding in ("/pad:pkcs", "/pad:none")]


def expressions():
    """What pgcrypto encrypts, and decrypts of that, at each length from 0 to 40."""
    chance = random.Random(1)
    for kind in TYPES:
        for length in range(41):
            if length % 8 == 0 or "pkcs" in kind:
                text, key, vector = (f"'\\x{chance.randbytes(size).hex()}'" for size in (length, chance.randint(1, 30), 8))
                encrypted = f"encrypt_iv({text}, {key}, {vector}, '{kind}')"
                yield f"encode({encrypted}, 'hex')"
                yield f"encode(decrypt_iv({encrypted}, {key}, {vector}, '{kind}'), 'hex') = encode({text}, 'hex')"


def main():
    module = sys.argv[1]
    ours, own = (Path(place).read_text() for place in sys.argv[2:])
    asked = list(expressions())
    with PostgreSql("") as server:
        if server.client(f"select {asked[0]}").returncode == 0:
            sys.exit("pgcrypto.py: single DES works without a provider that has it")
        # The user of the server may not be able to read where it lies.
        copied = shutil.copy(module, server.path)
        os.chmod(copied, 0o644)
        ours = ours.replace(module, copied)
        answers = []
        for configuration in (ours, own):
            server.configure(configuration)
            answers.append(server.answers(asked))
    if answers[0] != answers[1] or set(answers[0][1::2]) != {"t"}:
        sys.exit("pgcrypto.py: pgcrypto answers something else over the provider")
    print(f"pgcrypto: {len(asked)} answers, with single DES")


main()
