"""MariaDB and PostgreSQL as the tests start them: each in a temporary folder, on a socket there, without a network, until its `with` ends.

    servers.py mariadb|postgresql     ends with 0 if this machine has what the server takes"""

import os
import shutil
import signal
import subprocess
import sys
import tempfile
import time
from pathlib import Path

ROOT = os.geteuid() == 0

# A signal ends the tests as an error does: what they started ends, and their folders go.
signal.signal(signal.SIGTERM, lambda *_: sys.exit(128 + signal.SIGTERM))


class Server:
    """A server with a folder of its own. Root runs it as `nobody`, since no server takes root. If the test is killed, it ends too."""

    def __init__(self, program, stops_by):
        self.folder = tempfile.TemporaryDirectory(prefix="records.")
        self.path = Path(self.folder.name)
        self.stops_by = stops_by
        self.as_user = ["setpriv", f"--pdeathsig={stops_by.name[3:]}"]
        if ROOT:
            self.as_user += ["--reuid=nobody", "--regid=nogroup", "--clear-groups"]
        self.program = program

    def give(self):
        """Gives the folder, as it is, to the user of the server."""
        for place in [self.path, *self.path.iterdir()] if ROOT else []:
            shutil.chown(place, "nobody", "nogroup")

    def start(self, *words, **environment):
        """Starts the server and waits until it answers. RuntimeError with its log if it ends instead."""
        with open(self.path / "log", "wb") as log:
            self.process = subprocess.Popen(
                [*self.as_user, self.program, *words], stdin=subprocess.DEVNULL, stdout=log, stderr=log, env={**os.environ, **environment}
            )
        while self.client("").returncode != 0:
            if self.process.poll() is not None:
                raise RuntimeError((self.path / "log").read_text(errors="replace"))
            time.sleep(0.05)

    def stop(self):
        """Ends the server."""
        if self.process.poll() is None:
            self.process.send_signal(self.stops_by)
        self.process.wait()

    def run(self, statement):
        """Runs a statement of SQL that answers nothing."""
        done = self.client(statement)
        if done.returncode != 0:
            raise RuntimeError(done.stderr)

    def answers(self, expressions):
        """What the server answers to each expression of SQL: the text of a value, `null` for NULL."""
        done = self.client("".join(f"select {expression};\n" for expression in expressions))
        lines = done.stdout.split("\n")[:-1]
        if done.returncode != 0 or len(lines) != len(expressions):
            raise RuntimeError(f"{len(lines)} answers to {len(expressions)} expressions: {done.stderr}")
        return lines

    def values(self, expressions):
        """The same of expressions for hexadecimal digits, as bytes, and None for NULL."""
        return [None if answer == "null" else bytes.fromhex(answer) for answer in self.answers(expressions)]

    def __enter__(self):
        return self

    def __exit__(self, *_):
        if hasattr(self, "process"):
            self.stop()
        self.folder.cleanup()


class MariaDb(Server):
    """MariaDB with a key file, `keys`, and no users and tables."""

    def __init__(self, keys):
        super().__init__(shutil.which("mariadbd") or "/usr/sbin/mariadbd", signal.SIGTERM)
        self.keys = self.path / "keys"
        self.keys.write_bytes(keys)
        (self.path / "data").mkdir()
        self.give()
        words = ["--skip-networking", "--skip-grant-tables", "--skip-innodb", "--default-storage-engine=Aria"]
        words += [f"--datadir={self.path}/data", f"--socket={self.path}/socket", f"--des-key-file={self.keys}"]
        try:
            self.start("--no-defaults", *words)
        except BaseException:
            self.__exit__()
            raise

    def client(self, statements):
        words = ["mariadb", "--no-defaults", "--batch", "--skip-column-names", f"--socket={self.path}/socket"]
        return subprocess.run(words, input=statements, capture_output=True, text=True, check=False)

    def answers(self, expressions):
        return super().answers([f"coalesce({expression}, 'null')" for expression in expressions])

    def take_keys(self, keys):
        """Writes another key file, which the server reads."""
        self.keys.write_bytes(keys)
        self.run("flush des_key_file")


class PostgreSql(Server):
    """PostgreSQL with pgcrypto, over OpenSSL by a configuration."""

    def __init__(self, configuration):
        self.programs = postgresql_programs()
        super().__init__(self.programs / "postgres", signal.SIGQUIT)
        try:
            self.give()
            words = ["--username=test", "--auth=trust", "--no-sync", "--locale=C", "--encoding=UTF8"]
            subprocess.run(
                [*self.as_user, self.programs / "initdb", "-D", self.path / "data", *words], check=True, capture_output=True, cwd=self.path
            )
            self.configure(configuration)
            self.run("create extension pgcrypto")
        except BaseException:
            self.__exit__()
            raise

    def configure(self, configuration):
        """Starts the server, anew if it runs, with OpenSSL by a configuration, a text."""
        if hasattr(self, "process"):
            self.stop()
        place = self.path / "openssl.cnf"
        place.write_text(configuration)
        place.chmod(0o644)
        self.start("-D", self.path / "data", "-k", self.path, "-h", "", "-F", OPENSSL_CONF=str(place))

    def client(self, statements):
        words = ["-X", "-q", "-A", "-t", "-P", "null=null", "-v", "ON_ERROR_STOP=1", "-h", self.path, "-U", "test", "-d", "postgres"]
        return subprocess.run([self.programs / "psql", *words], input=statements, capture_output=True, text=True, check=False)


def postgresql_programs():
    """The folder of PostgreSQL's programs: Debian's, the newest one, else that of the path."""
    folders = sorted(Path("/usr/lib/postgresql").glob("*/bin/postgres"), key=lambda place: int(place.parts[-3]))
    found = folders[-1] if folders else shutil.which("postgres")
    return Path(found).parent if found else None


def main():
    if sys.argv[1] == "mariadb":
        has = shutil.which("mariadb") and (shutil.which("mariadbd") or os.path.exists("/usr/sbin/mariadbd"))
    else:
        has = postgresql_programs() is not None and list(Path("/usr/share").glob("postgresql/*/extension/pgcrypto.control"))
    sys.exit(not (has and shutil.which("setpriv")))


if __name__ == "__main__":
    main()
