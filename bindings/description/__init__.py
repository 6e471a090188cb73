"""Reads the header, which describes the interface, and makes of it what each language repeats."""

import os
import sys

try:
    import pycparser  # noqa: F401
except ImportError:
    # Debian's modules are there for /usr/bin/python3.
    if os.path.realpath(sys.executable) == os.path.realpath("/usr/bin/python3"):
        sys.exit(f"{sys.argv[0]}: pycparser is missing: apt-get install python3-pycparser")
    os.execv("/usr/bin/python3", ["/usr/bin/python3", *sys.argv])
