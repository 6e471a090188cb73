"""Pages that are damaged, of a good one: each with the words that it must say."""

import base64
import gzip
import hashlib
import re

MODULE = re.compile('(<script type="application/octet-stream" id="module">)([^<]*)')
SCRIPT = re.compile('(<script type="module">)(.*?)(</script>)', re.S)


def _module_of(page):
    return gzip.decompress(base64.b64decode(MODULE.search(page)[2]))


def _with_module(page, module):
    return MODULE.sub(lambda it: it[1] + base64.b64encode(gzip.compress(module, 9, mtime=0)).decode(), page)


def _with_script(page, old, new):
    """The page with other words in its script, and the policy put right for it."""
    script = SCRIPT.search(page)[2]
    assert old in script
    changed = script.replace(old, new)
    hashes = [base64.b64encode(hashlib.sha256(text.encode()).digest()).decode() for text in (script, changed)]
    assert hashes[0] in page
    return page.replace(script, changed).replace(hashes[0], hashes[1])


def _flipped(module, at):
    return module[:at] + bytes([module[at] ^ 1]) + module[at + 1 :]


def damaged(page):
    """One bit of the module is another, one character of its text is missing, or the text ends early."""
    module = _module_of(page)
    for part in (3, 5, 9):
        yield "a bit of the module", _with_module(page, _flipped(module, len(module) * part // 10)), "the module is not one"
    text = MODULE.search(page)[2]
    yield "a text that ends early", page.replace(text, text[: len(text) // 2 // 4 * 4]), "This page offers nothing"
    yield "a text that lacks a character", page.replace(text, text[:1000] + text[1001:]), "This page offers nothing"


def patched(page):
    """The module is another one, and its sum was put right: the known values show it."""
    module = _module_of(page)
    # The masks of DUKPT stand among the module's data as C0 C0 C0 C0 00 00 00 00, and the page has no other hold on them.
    for name, other in wrong_modules(module):
        sums = [hashlib.sha256(it).hexdigest() for it in (module, other)]
        yield name, _with_script(_with_module(page, other), f'"{sums[0]}"', f'"{sums[1]}"'), "This page offers nothing"


def wrong_modules(module):
    """Modules that load, and answer otherwise: with two exports exchanged by their names."""
    pairs = (("dukpt_pin_key", "dukpt_mac_key"), ("internal_encrypt_ecb", "internal_decrypt_ecb"))
    for one, other in ((f"cukvashe_{name}".encode() for name in pair) for pair in pairs):
        assert len(one) == len(other)
        at, to = (re.search(re.escape(name) + rb"\x00", module).start() for name in (one, other))
        changed = bytearray(module)
        changed[at : at + len(one)], changed[to : to + len(other)] = other, one
        yield f"{one.decode()} is {other.decode()}", bytes(changed)
