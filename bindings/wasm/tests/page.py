#!/usr/bin/env python3
"""tests/page.py PAGE KNOWN_ANSWERS PICTURES: drives the page in Chromium and compares what it says with published values.

chromedriver is asked by plain HTTP. Pictures of the page go into a folder, for whoever wants to look at them."""

import atexit
import base64
import json
import os
import pathlib
import re
import shutil
import signal
import subprocess
import sys
import tempfile
import time
import urllib.error
import urllib.request

sys.path.insert(0, str(pathlib.Path(__file__).resolve().parent))
from pages import damaged, patched  # noqa: E402

TAB, ENTER, ESCAPE = "\ue004", "\ue007", "\ue00c"

BASE = "0123456789ABCDEFFEDCBA9876543210"
THREE = "8aa83bf8cbda1062 0bc1bf19fbb6cd58 bc313d4a371ca8b5"
CARD = "4012345678909"

# A key block that is published, its protection key and its key.
PROTECTION = "DD7515F2BFC17F85CE48F3CA25CB21F6"
PUBLISHED = "B0080P0TE00E000094B420079CC80BA3461F86FE26EFC4A3B8E4FA4C5F5341176EED7B727B8A248E"
WRAPPED = "3F419E1CB7079442AA37474C2EFBF8B8"


class Browser:
    """A session of Chromium."""

    def __init__(self, *words):
        self.place = None
        self.folder = tempfile.mkdtemp()
        self.driver = subprocess.Popen(["chromedriver", "--port=0"], stdout=subprocess.PIPE, text=True)
        atexit.register(self.close)
        for line in self.driver.stdout:
            if found := re.search(r"started successfully on port (\d+)", line):
                self.port = int(found[1])
                break
        else:
            raise SystemExit("chromedriver does not start")
        # Shared memory lies in files, since a container may have little of its own.
        arguments = ["--headless=new", "--disable-gpu", "--disable-dev-shm-usage", "--window-size=1180,1000",
                     "--host-resolver-rules=MAP * ~NOTFOUND", f"--user-data-dir={self.folder}", *words]
        if os.geteuid() == 0:
            arguments.append("--no-sandbox")
        options = {"args": arguments, "binary": "/usr/bin/chromium"} if os.path.exists("/usr/bin/chromium") else {"args": arguments}
        wanted = {"browserName": "chrome", "goog:chromeOptions": options, "timeouts": {"script": 600_000, "pageLoad": 600_000},
                  "goog:loggingPrefs": {"browser": "ALL", "performance": "ALL"}}
        session = self.ask("POST", "/session", {"capabilities": {"alwaysMatch": wanted}})
        self.place = f"/session/{session['sessionId']}"
        self.version = session["capabilities"]["browserVersion"]

    def ask(self, method, path, body=None):
        data = None if body is None else json.dumps(body).encode()
        request = urllib.request.Request(f"http://127.0.0.1:{self.port}{self.place or ''}{path}", data,
                                         {"Content-Type": "application/json"}, method=method)
        try:
            with urllib.request.urlopen(request, timeout=600) as answer:
                return json.load(answer)["value"]
        except urllib.error.HTTPError as error:
            raise SystemExit(f"chromedriver refuses {method} {path}: {error.read().decode()[:600]}") from error

    def run(self, code, *arguments):
        return self.ask("POST", "/execute/sync", {"script": code, "args": list(arguments)})

    def command(self, name, **parameters):
        return self.ask("POST", "/goog/cdp/execute", {"cmd": name, "params": parameters})

    def press(self, text, *modifiers):
        steps = [{"type": "keyDown", "value": key} for key in modifiers]
        steps += [{"type": event, "value": key} for key in text for event in ("keyDown", "keyUp")]
        steps += [{"type": "keyUp", "value": key} for key in modifiers]
        self.ask("POST", "/actions", {"actions": [{"type": "key", "id": "keys", "actions": steps}]})

    def picture(self, name):
        (PICTURES / f"{name}.png").write_bytes(base64.b64decode(self.ask("GET", "/screenshot")))

    def log(self, kind):
        return self.ask("POST", "/se/log", {"type": kind})

    def open(self, page):
        self.ask("POST", "/url", {"url": pathlib.Path(page).resolve().as_uri()})
        for _ in range(1200):
            state = self.run("return document.getElementById('state').textContent")
            if not state.startswith("This page computes by JavaScript"):
                return state
            time.sleep(0.05)
        return state

    def close(self):
        """Ends the browser and its driver; the end of the tests does so too, whatever ended them."""
        atexit.unregister(self.close)
        try:
            if self.place is not None:
                self.ask("DELETE", "")
        finally:
            self.driver.terminate()
            self.driver.wait()
            # Processes of the browser end a moment after it, and may still write there.
            shutil.rmtree(self.folder, ignore_errors=True)


count = 0


def same(got, wanted, what):
    global count
    if got != wanted:
        raise SystemExit(f"{what}: {got!r}, and wanted is {wanted!r}")
    count += 1


def becomes(browser, code, wanted, what, *arguments):
    """Compares what a page has come to, for which a busy machine may take a while: a minute at most."""
    end = time.monotonic() + 60
    while (got := browser.run(code, *arguments)) != wanted and time.monotonic() < end:
        time.sleep(0.02)
    same(got, wanted, what)


# ---- What a person does

def choose(browser, calculation):
    """Chooses a calculation by its link; its title then has the focus."""
    browser.run("document.querySelector(`nav a[href='#${arguments[0]}']`).click()", calculation)
    becomes(browser, "return [document.activeElement.id, [...document.querySelectorAll('section:not([hidden])')].map(it => it.id)]",
            [f"{calculation}-title", [calculation]], f"the focus after {calculation}")


def fill(browser, calculation, **texts):
    """Puts texts into fields as typing does, and presses the button."""
    browser.run("""
      for (const [name, text] of Object.entries(arguments[1])) {
        const field = document.getElementById(`${arguments[0]}-${name}`);
        field.value = text;
        field.dispatchEvent(new Event("input", { bubbles: true }));
      }
      document.querySelector(`#${arguments[0]} button[type=submit]`).click();""", calculation, texts)


def answers(browser, calculation):
    """The answers by their labels, each as text or, of a key, with its check value."""
    return browser.run("""
      return Object.fromEntries([...document.querySelectorAll(`#${arguments[0]} dl dt`)].map((term) => {
        const line = term.nextSibling, value = line.querySelector(".value")?.textContent ?? line.textContent;
        const check = line.querySelector(".check")?.textContent;
        return [term.textContent, check === undefined ? value : `${value} ${check}`];
      }));""", calculation)


def faults(browser):
    """The faults that are shown, each with its id, and the field that has the focus."""
    return browser.run("""
      const shown = [...document.querySelectorAll("section:not([hidden]) .field > .fault")].filter((it) => it.textContent !== "");
      for (const it of shown) {
        const field = document.getElementById(it.id.replace(/-fault$/, ""));
        if (field.getAttribute("aria-invalid") !== "true" || !field.getAttribute("aria-describedby").includes(it.id)) return "not tied";
        if (it.getBoundingClientRect().height === 0) return "not seen";
      }
      return [shown.map((it) => [it.id, it.textContent]), document.activeElement.id];""")


# ---- What is compared

EXAMPLES = {
    "dukpt": {"PIN key": "042666B49184CF5C68DE9628D0397B36", "MAC key, request": "042666B4918430A368DE9628D03984C9",
              "Data key, request": "448D3F076D8304036A55A3D7E0055A78", "Data key, response": "AD7BFC8B06AD3A08A560B4105CF8D9E5",
              "Transaction key": "042666B49184CFA368DE9628D0397BC9", "Initial key (IPEK)": "6AC292FAA1315B4D858AB3A3D7D5933A",
              "Counter": "1", "Next KSN": "FFFF9876543210E00002"},
    "pin": {"Block in clear": "041274EDCBA9876F", "Encrypted block": "1B9C1845EB993A7A"},
    "unpin": {"PIN": "1234", "Block in clear": "041274EDCBA9876F"},
    "translate": {"Translated block": "C03D21CDBCB0C58B"},
    "pvv": {"PIN verification value": "1894"},
    "offset": {"Offset": "9999", "Natural PIN": "0620"},
    "emv": {"Application cryptogram (ARQC)": "AC06A6DF7A7D00E8", "Response by method 1 (ARPC)": "F94A6571647B89F7",
            "Session key": "38324E73F063EFDD5CA88C322476A45B", "Card’s key": "67F8292358083E5EA7AB7FDA58D53B6B"},
    "mac": {"MAC": "2E2B1428CC78254F", "First four bytes": "2E2B1428", "Message": "22 bytes"},
    "cvv": {"Card verification value": "561"},
    "check": {"Check value (KCV)": "08D7B4", "Parity": "odd in every byte", "Weak key test": "passed"},
    "components": {"Key": f"{BASE} KCV 08D7B4"},
    "unwrap": {"Key": "E8BC63E5479455E26577F715D587FE68 KCV 9A4212", "Usage": "B0: base derivation key (BDK)", "Algorithm": "T: triple DES",
               "Mode of use": "X: derive keys", "Exportability": "S: sensitive, exportable in other forms too", "Version of the key": "12",
               "Version of the block": "B: derived keys", "Optional block KS": "00604B120F9292800000"},
    "wrap": {"Key block": PUBLISHED, "Padding": "as given", "Usage": "P0: encryption of PIN blocks"},
    "blocks": {"Ciphertext": "A826FD8CE53B855FCCE21C8112256FE668D5C05DD9B6B900"},
    "records": {"Text 1": "4111111111111111", "Text 2": "12345678"},
}


def examples(browser):
    """The example of each calculation; published values and OpenSSL's, as in the tests of the library."""
    ids = browser.run("return [...document.querySelectorAll('nav a')].map((it) => it.hash.slice(1))")
    same(ids, list(EXAMPLES), "the calculations")
    for calculation, wanted in EXAMPLES.items():
        choose(browser, calculation)
        browser.run("""
          [...document.querySelectorAll(`#${arguments[0]} button`)].find((it) => it.textContent === "Fill in an example").click();
          document.querySelector(`#${arguments[0]} button[type=submit]`).click();""", calculation)
        got = answers(browser, calculation)
        for label, value in wanted.items():
            same(got.get(label, "").partition(" KCV ")[0] if " KCV " not in value else got.get(label), value, f"{calculation}, {label}")
        browser.picture(calculation)


def is_answer(browser, calculation, wanted, **texts):
    fill(browser, calculation, **texts)
    got = answers(browser, calculation)
    for label, value in wanted.items():
        same(got.get(label), value, f"{calculation} of {texts}, {label} ({faults(browser)})")


def other_values(browser):
    """Published values beside the examples; those of formats 1 and 3 are by hand."""
    choose(browser, "dukpt")
    for serial, pin_key in (("FFFF9876543210E00002", "C46551CEF9FD244FAA9AD834130D3B38"),
                            ("FFFF9876543210EFF800", "F9CDFEBF4F5B1D61B3EC12454527E189")):
        fill(browser, "dukpt", **{"from": "base"}, base=BASE, serial=serial)
        same(answers(browser, "dukpt")["PIN key"].split(" ")[0], pin_key, f"the PIN key of {serial}")
    fill(browser, "dukpt", **{"from": "initial"}, initial="6ac292fa a1315b4d 858ab3a3 d7d5933a", serial="ffff 9876 5432 10e0 0001")
    same(answers(browser, "dukpt")["PIN key"].split(" ")[0], EXAMPLES["dukpt"]["PIN key"], "the PIN key from the initial key")
    fill(browser, "dukpt", serial="FFFF9876543210E00000")
    same("no terminal uses" in answers(browser, "dukpt")["Counter"], True, "the counter 0")
    fill(browser, "dukpt", serial="FFFF9876543210FFF800")
    same(answers(browser, "dukpt")["Next KSN"], "none: the counter is used up", "the last counter")

    choose(browser, "pin")
    is_answer(browser, "pin", {"Block in clear": "341274B9F9B9D35D"}, format="3", pin="1234", account=CARD, fill="ABCDEFABCD",
              under="nothing")
    is_answer(browser, "pin", {"Block in clear": "141234FE09A51234"}, format="1", fill="FE09A51234")
    is_answer(browser, "pin", {"Encrypted block": "1B9C1845EB993A7A"}, format="0", account="4012-3456-78909", under="key",
              key="042666B49184CF5C68DE9628D0397B36")
    choose(browser, "unpin")
    is_answer(browser, "unpin", {"PIN": "1234"}, format="3", block="341274B9F9B9D35D", account="4012 3456 78909", under="nothing")
    is_answer(browser, "unpin", {"PIN": "1234"}, format="1", block="141234FE09A51234")
    is_answer(browser, "unpin", {"PIN": "1234", "Block in clear": "041274EDCBA9876F"}, format="0", block="1B9C1845EB993A7A",
              under="key", key="042666B49184CF5C68DE9628D0397B36")

    is_answer(browser, "unpin", {"PIN": "1234"}, format="2", block="241234FFFFFFFFFF", under="nothing")
    choose(browser, "pin")
    is_answer(browser, "pin", {"Block in clear": "241234FFFFFFFFFF"}, format="2", under="nothing")

    # As in bindings/known_calls.txt: blocks of formats 3 and 1, under keys of two parts and of DES.
    other = "89e88cf7931444f334bd7547fc3f380c"
    choose(browser, "translate")
    is_answer(browser, "translate", {"Translated block": "8856DB66D89E9EFF"}, block="ba041cb9b3034d36", **{"from": "3"}, incoming=other,
              to="0", outgoing=other, account=CARD)
    is_answer(browser, "translate", {"Translated block": "BA041CB9B3034D36"}, block="824daa361d7dc65a", **{"from": "1"},
              incoming=BASE[:16], to="3", fill="ABCDEFABCD")
    is_answer(browser, "translate", {"Translated block": "C6410DAF0A0AD8F7"}, to="1")
    choose(browser, "pvv")
    is_answer(browser, "pvv", {"PIN verification value": "1723"}, key=BASE, index="6", account="400000123456", pin="99990")
    choose(browser, "offset")
    is_answer(browser, "offset", {"Offset": "11111"}, key=BASE, validation="4123456789012345", table="0123456789012345", pin="17316")

    # By Python's hashlib and OpenSSL's ciphers.
    choose(browser, "emv")
    is_answer(browser, "emv", {"Application cryptogram (ARQC)": "85242B5294A5DD27", "Card’s key": "985EC4FD3EDF6162E31AF1C7D0543416 KCV 88B6F3"},
              issuer=BASE, account="99012345678901234", sequence="45", option="b", counter="001C", code="3030",
              data="00000000500000000000000000000840000000000008401502200063A5B1F2580000001C06010A03A4A000")

    # ISO/IEC 9797-1, annex B, and NIST's examples of CMAC.
    choose(browser, "mac")
    is_answer(browser, "mac", {"MAC": "A1C72E74EA3FA9B6"}, kind="retail", padding="1", key=BASE, form="text",
              message="Now is the time for all ")
    is_answer(browser, "mac", {"MAC": "E9086230CA3BE796"}, padding="2")
    is_answer(browser, "mac", {"MAC": "10E1F0F108341B6D"}, kind="cbc", key=BASE[:16])
    is_answer(browser, "mac", {"MAC": "E45B3AD2B7CC0856"}, padding="1", form="hex",
              message="4e6f7720 69732074 68652074 696d6520 666f7220 6974")
    is_answer(browser, "mac", {"MAC": "B7A688E122FFAF95"}, kind="cmac", key=THREE, message="")
    is_answer(browser, "mac", {"MAC": "8E8F293136283797"}, message="6bc1bee22e409f96")

    # By PostgreSQL 15 and Jasypt 1.9.3; and values that can't be read beside one that can.
    choose(browser, "records")
    is_answer(browser, "records", {"Text 1": "hello world"}, writer="pgcrypto", key="short key", cipher="3des",
              values="ce1252c01a55ff49ca7c3db7617f8e96")
    is_answer(browser, "records", {"Text 1": "hello world"}, key="0123456789abcdef01234567", iv="3132333435363738",
              values="90aaa5a2 eb3a7490 5ebbd8bc 8355164f")
    is_answer(browser, "records", {"Text 1": "jdbc password 1", "Text 2": "jdbc password 1"}, writer="jasypt", key="secret", iterations="1000",
              values="XFI3GkOHuvaUreHPZLAFn+zx81+pE+jN\n\nENC(XFI3GkOHuvaUreHPZLAFn+zx81+pE+jN)")
    fill(browser, "records", writer="mysql", key="k", values="FF00\nFFF0F19FAD283C9714")
    same(answers(browser, "records")["Text 2"], "abcdefg", "a value behind one that can't be read")
    same("MySQL" in answers(browser, "records")["Text 1"], True, "a value that can't be read")

    choose(browser, "check")
    is_answer(browser, "check", {"Check value (KCV)": "948A43", "Cipher": "DES", "Parity": "odd in every byte"}, key="133457799bbcdff1")
    is_answer(browser, "check", {"Check value (KCV)": "4EBA73"}, key="0123456789abcdef 23456789abcdef01 456789abcdef0123")
    is_answer(browser, "check", {"Check value (KCV)": "8CA64D", "With odd parity": "0101010101010101"}, key="0" * 16)
    same(answers(browser, "check")["Weak key test"].startswith("refuses"), True, "the key of zeros")
    choose(browser, "components")
    fill(browser, "components", components="1010101010101010\n0123456789ABCDEF\n\n8000000000000000\n")
    same(answers(browser, "components")["Key"].split(" ")[0], "9132547698BADCFE", "three components")


def key_blocks(browser):
    """Published blocks of each version; blocks by the package `cryptography`; and what is made with random padding is read again."""
    choose(browser, "unwrap")
    for protection, block, key in (
            ("89E88CF7931444F334BD7547FC3F380C", "A0072P0TE00E0000F5161ED902807AF26F1D62263644BD24192FDB3193C730301CEE8701",
             "F039121BEC83D26B169BDCD5B22AAF8F"),
            ("b8ed59e0 a279a295 e9f5ed79 44fd06b9",
             "C0096B0TX12S0100KS1800604B120F9292800000\nBFB9B689CB567E66FC3FEE5AD5F52161FC6545B9D6098901\n5D02155C",
             "EDB380DD340BC2620247D445F5B8D678"),
            ("3132333435363738393A3B3C3D3E3F404142434445464748",
             "C0088D0TB00N0000C4E018DF42F39F60D80861D90D48657431AE5186F304704049244D894538D8BDF28B587B",
             "000102030405060708090A0B0C0D0E0F1011121314151617")):
        fill(browser, "unwrap", protection=protection, block=block)
        same(answers(browser, "unwrap").get("Key", "").partition(" KCV ")[0], key, f"the key of {block} ({faults(browser)})")
    # Keys for other algorithms than DES and triple DES have no check value by these; the values are OpenSSL's.
    for block, algorithm, key in (
            (PUBLISHED, "T: triple DES", f"{WRAPPED} KCV 57C409"),
            ("B0064D0DB00E0000153D63BEEBA1BECFB281B2B84B161093484393BE1F0EF9A4", "D: DES", f"{WRAPPED[:16]} KCV C3967D"),
            ("B0080D0AB00E0000E4591C1AE78651DF4CAE39F642627B4E9F6A5CB63B52701426FA76A7FFDEB16A", "A: a code of its own", WRAPPED),
            ("B0080M7HC00E000003BAF4E1C02C4AEF78DF4C0F8B066071D41F051C7B40753DD3662FF5AFB8FBC4", "H: a code of its own", WRAPPED)):
        is_answer(browser, "unwrap", {"Key": key, "Algorithm": algorithm}, protection=PROTECTION, block=block)
    choose(browser, "wrap")
    made = []
    for key in (WRAPPED[:16], WRAPPED, BASE + WRAPPED[:16]):
        fill(browser, "wrap", protection=PROTECTION, key=key, version="B", usage="other", otherUsage="9x", algorithm="T", mode="N",
             keyVersion="c1", exportability="S", optional="KS 0123\n\nID a test ", padding="")
        got = answers(browser, "wrap")
        same(got.get("Padding"), "random", f"the padding of {key} ({faults(browser)})")
        same((got["Usage"], got["Optional block KS"], got["Optional block ID"]), ("9x: a code of its own", "0123", "a test"), "what is wrapped")
        made.append((got["Key block"], key))
    same(len({len(block) for block, _ in made}), 1, "the length of the blocks, which hides that of the key")
    # The published optional block as it stands, and by its name and content; contents that begin with a length.
    for text, content in (("KS1800604B120F9292800000", "00604B120F9292800000"), ("KS 00604B120F9292800000", "00604B120F9292800000"),
                          ("KS1A1800604B120F9292800000", "1800604B120F9292800000"), ("  KS0cABCDEFGH ", "ABCDEFGH"),
                          ("KS0002000CAB", "AB"), ("KS0004000CAB", "AB"), ("KS0B0a test", "0a test"), ("KS", ""), ("KS04", "")):
        fill(browser, "wrap", optional=text)
        same(answers(browser, "wrap").get("Optional block KS"), content, f"the content of {text} ({faults(browser)})")
    fill(browser, "wrap", optional="KS 0123\nPB080000")
    same(answers(browser, "wrap").get("Optional block PB"), "0000", f"a block PB of one's own ({faults(browser)})")
    choose(browser, "unwrap")
    # The third known block in each other context, by OpenSSL.
    for block, context in (
            ("C0096B0TX12S0110KS1800604B120F9292800000BFB9B689CB567E66FC3FEE5AD5F52161FC6545B9D60989017E674D98", "1: storage only"),
            ("C0096B0TX12S0120KS1800604B120F9292800000BFB9B689CB567E66FC3FEE5AD5F52161FC6545B9D6098901024F5594", "2: exchange only")):
        is_answer(browser, "unwrap", {"Context of the key": context}, protection="b8ed59e0a279a295e9f5ed7944fd06b9", block=block)
    for block, key in made:
        is_answer(browser, "unwrap", {"Version of the key": "c1", "Mode of use": "N: no restriction"}, protection=PROTECTION, block=block)
        same(answers(browser, "unwrap")["Key"].partition(" KCV ")[0], key, "what is wrapped, read again")


def known_answers(browser):
    """Each list of known_answers.txt that the page has a cipher for, both ways."""
    lists = []
    for line in pathlib.Path(KNOWN_ANSWERS).read_text(encoding="ascii").splitlines():
        words = line.split()
        if not words or line.startswith("#"):
            continue
        if line.startswith(" "):
            lists[-1][2] += words[0]
            lists[-1][3] += words[1]
        else:
            lists.append(words + [""] * (5 - len(words)))
    choose(browser, "blocks")
    compared = 0
    for name, key, plain, cipher, iv in lists:
        if name.partition("-")[0] not in ("des", "ede2", "ede3"):
            continue
        mode = "cbc" if name.endswith("-cbc") else "ecb"
        is_answer(browser, "blocks", {"Ciphertext": cipher.upper()}, direction="encrypt", mode=mode, key=key, iv=iv, data=plain)
        is_answer(browser, "blocks", {"Plaintext": plain.upper()}, direction="decrypt", data=cipher)
        compared += 1
    same(compared >= 40, True, f"{compared} known answers")
    # As in bindings/known_calls.txt.
    triple, text = "0123456789abcdef23456789abcdef01456789abcdef0123", b"Now is the time for all ".hex().upper()
    for mode, cipher in (("ctr", "EE7EC75C1A101301E26ACE7F785967472F3AFE4F43D328"), ("ofb", "EE7EC75C1A1013019A8A610002668E0787E28AF9EC26B8"),
                         ("cfb64", "EE7EC75C1A101301C4AB2F10462E5DD417400B445B5F2A"), ("cfb8", "EE9B04FFCACEC80670606800FA2EE5DF5045492D0C3C04"),
                         ("cfb1", "D9E64B67304F5FCDBB2F73BCC5C8BE7CEFEB7E240C25D5")):
        given = {"mode": mode, "key": triple, "iv": "1234567890abcdef"}
        is_answer(browser, "blocks", {"Ciphertext": cipher}, direction="encrypt", data=text[:46], **given)
        is_answer(browser, "blocks", {"Plaintext": text[:46]}, direction="decrypt", data=cipher)


EMPTY = "Fill in this field."


def each_fault(browser):
    """Each fault that a form can have stands beside its field, which has the focus: that of the first, where there are several."""
    def refuses(calculation, wanted, **texts):
        fill(browser, calculation, **texts)
        got = faults(browser)
        if isinstance(got, str):
            raise SystemExit(f"{calculation} of {texts}: {got}")
        same([it for it, _ in got[0]], [f"{calculation}-{name}-fault" for name in wanted], f"{calculation} of {texts}, fields: {got}")
        same(got[1], f"{calculation}-{next(iter(wanted))}", f"{calculation} of {texts}, focus")
        for (name, words), (_, said) in zip(wanted.items(), got[0]):
            same(words in said, True, f"{calculation} of {texts}, {name}: {said}")
        same("PIN" in answers(browser, calculation), False, "no answer")

    browser.run("document.getElementById('clear').click()")
    choose(browser, "dukpt")
    refuses("dukpt", {"base": EMPTY, "serial": EMPTY})
    refuses("dukpt", {"base": "32 hexadecimal digits are needed, and here are 31."}, base=BASE[:31], serial="FFFF9876543210E00001")
    refuses("dukpt", {"base": "Character 3, “x”, is not a hexadecimal digit"}, base="0 1x" + BASE[3:])
    refuses("dukpt", {"serial": "20 hexadecimal digits are needed, and here are 16."}, base=BASE, serial="9876543210E00001")
    refuses("dukpt", {"initial": EMPTY, "serial": "here are 16"}, **{"from": "initial"})
    choose(browser, "pin")
    refuses("pin", {"pin": EMPTY, "account": EMPTY, "base": EMPTY, "serial": EMPTY})
    refuses("pin", {"pin": "4 to 12 digits, but 3."}, pin="123", account=CARD, under="nothing")
    refuses("pin", {"pin": "is not a digit"}, pin="12a4")
    refuses("pin", {"account": "8 to 19 digits, but 3."}, pin="1234", account="123")
    refuses("pin", {"account": "is not a digit"}, account="401234567890x")
    refuses("pin", {"fill": EMPTY}, format="3", account=CARD)
    refuses("pin", {"fill": "Ten hexadecimal digits are needed, and here are 9."}, fill="ABCDEFABC")
    browser.picture("fault")
    refuses("pin", {"fill": "fill digit"}, fill="ABCDEFABC0")
    refuses("pin", {"key": "16, 32 or 48 hexadecimal digits are needed, and here are 4."}, fill="ABCDEFABCD", under="key", key="0123")
    choose(browser, "unpin")
    refuses("unpin", {"block": EMPTY, "account": EMPTY, "base": EMPTY, "serial": EMPTY})
    refuses("unpin", {"block": "16 hexadecimal digits"}, block="0412", account=CARD, under="nothing")
    refuses("unpin", {"block": "does not begin with the digit"}, block="141274EDCBA9876F")
    refuses("unpin", {"block": "no length of a PIN"}, block="031274EDCBA9876F")
    refuses("unpin", {"block": "above 9"}, block="04A274EDCBA9876F")
    refuses("unpin", {"block": "stands behind the PIN"}, block="041274EDCBA9876E")
    refuses("unpin", {"block": "does not begin"}, block="1B9C1845EB993A7A", under="key", key=BASE)
    same("Block in clear" in answers(browser, "unpin"), True, "the block in clear beside a fault")
    browser.picture("unread")
    refuses("unpin", {"account": "8 to 19 digits, but 20."}, account="4" * 20)
    choose(browser, "translate")
    refuses("translate", {"block": EMPTY, "incoming": EMPTY, "outgoing": EMPTY, "account": EMPTY})
    refuses("translate", {"block": "this is no PIN block"}, block="0" * 16, incoming=BASE, outgoing=BASE, account=CARD)
    refuses("translate", {"account": "8 to 19 digits, but 7."}, account="4" * 7)
    refuses("translate", {"fill": EMPTY}, to="3", account=CARD)
    refuses("translate", {"fill": "fill digit"}, fill="0123456789")
    refuses("translate", {"to": "Only a block of format 1"}, to="1")
    refuses("translate", {"block": "this is no PIN block"}, **{"from": "1"})
    choose(browser, "pvv")
    refuses("pvv", {"key": EMPTY, "account": EMPTY, "pin": EMPTY})
    refuses("pvv", {"pin": "4 to 12 digits, but 3."}, key=BASE, account=CARD, pin="123")
    refuses("pvv", {"account": "12 to 19 digits, but 11."}, account="4" * 11, pin="1234")
    choose(browser, "offset")
    refuses("offset", {"key": EMPTY, "validation": EMPTY, "table": EMPTY, "pin": EMPTY})
    refuses("offset", {"table": "sixteen digits, but 15."}, key=BASE, validation="4" * 16, table="0" * 15, pin="1234")
    refuses("offset", {"table": "eight different digits"}, table="0" * 16)
    refuses("offset", {"table": "is not a digit"}, table="012345678901234x")
    refuses("offset", {"pin": "4 to 12 digits, but 13."}, table="0123456789012345", pin="1" * 13)
    choose(browser, "emv")
    refuses("emv", {"issuer": EMPTY, "account": EMPTY, "sequence": EMPTY, "counter": EMPTY, "code": EMPTY})
    refuses("emv", {"sequence": "two digits, but 1."}, issuer=BASE, account=CARD, sequence="1", counter="0001", code="3030")
    refuses("emv", {"sequence": "is not a digit"}, sequence="1x")
    refuses("emv", {"counter": "4 hexadecimal digits are needed"}, sequence="01", counter="01")
    choose(browser, "mac")
    refuses("mac", {"key": EMPTY})
    refuses("mac", {"key": "32 hexadecimal digits are needed"}, key=BASE[:16])
    refuses("mac", {"key": "32 or 48 hexadecimal digits"}, kind="cmac")
    refuses("mac", {"message": "even number"}, key=BASE, form="hex", message="123")
    choose(browser, "cvv")
    refuses("cvv", {"key": EMPTY, "account": EMPTY, "expiry": EMPTY, "service": EMPTY})
    refuses("cvv", {"account": "12 to 19 digits, but 11."}, key=BASE, account="4" * 11, expiry="8701", service="101")
    refuses("cvv", {"account": "is not a digit"}, account="4" * 12 + "x")
    refuses("cvv", {"expiry": "four digits, but 3."}, account="4" * 16, expiry="870")
    refuses("cvv", {"expiry": "is not a digit"}, expiry="87/1")
    refuses("cvv", {"service": "three digits, but 4."}, expiry="8701", service="1010")
    refuses("cvv", {"service": "is not a digit"}, service="10a")
    choose(browser, "check")
    refuses("check", {"key": "16, 32 or 48"}, key=BASE[:20])
    choose(browser, "components")
    refuses("components", {"components": "Two components at least"}, components=BASE)
    refuses("components", {"components": "Component 2: 16, 32 or 48"}, components=f"{BASE}\n{BASE[:6]}")
    refuses("components", {"components": "differ in their number"}, components=f"{BASE}\n{BASE[:16]}")
    refuses("components", {"components": "weak"}, components=f"{BASE}\n{BASE}")
    choose(browser, "unwrap")
    refuses("unwrap", {"protection": EMPTY, "block": EMPTY})
    refuses("unwrap", {"protection": "32 or 48 hexadecimal digits are needed, and here are 16."}, protection=BASE[:16], block=PUBLISHED)
    for place, character, words in ((1, "1", "another number of characters"), (0, "D", "none of A, B and C"), (12, "x", "Characters 13 to 16"),
                                    (14, "3", "Characters 13 to 16"), (14, "1", "The MAC is not"),
                                    (13, "1", "optional blocks"), (0, "A", "another number of digits"), (16, "a", "upper case"),
                                    (79, "\uff15", "upper case"), (79, "F", "The MAC is not"), (5, "K", "The MAC is not")):
        refuses("unwrap", {"block": words}, protection=PROTECTION, block=PUBLISHED[:place] + character + PUBLISHED[place + 1:])
    same(answers(browser, "unwrap").get("Usage, not authenticated"), "K0: encryption of keys", "a header beside a wrong MAC")
    same("Key" in answers(browser, "unwrap"), False, "no key beside a wrong MAC")
    browser.picture("forged")
    refuses("unwrap", {"block": "holds no key"}, block="B0080P0TE00E000046AD3EFD0DCF51A1FFDD4D468C4DC235EC217D6B8557FF68335F3126A5C1C8B5")
    choose(browser, "wrap")
    refuses("wrap", {"protection": EMPTY, "key": EMPTY, "keyVersion": EMPTY})
    refuses("wrap", {"keyVersion": "2 characters are needed, and here are 3."}, protection=PROTECTION, key=WRAPPED, keyVersion="000")
    refuses("wrap", {"keyVersion": "Character 2, “-”, is no letter"}, keyVersion="0-")
    refuses("wrap", {"otherUsage": EMPTY}, usage="other", keyVersion="00")
    for code, words in (("P-", "Character 2, “-”, is no letter"), ("\u00e90", "Character 1, “\u00e9”, is no letter"),
                        ("\U0001f600P", "Character 1, “\U0001f600”, is no letter"), ("P", "2 characters are needed, and here are 1."),
                        ("P00", "2 characters are needed, and here are 3.")):
        refuses("wrap", {"otherUsage": words}, otherUsage=code)
    refuses("wrap", {"otherUsage": "is no letter", "keyVersion": "is no letter"}, otherUsage="--", keyVersion="0\uff10")
    fill(browser, "wrap", otherUsage="", keyVersion="00")
    refuses("wrap", {"padding": "8, 16, 24 or 32 bytes"}, usage="P0", padding="00")
    refuses("wrap", {"padding": "even number"}, padding="0")
    # An optional block with its length, by habit, and what is neither that nor a name and a content.
    for text in ("K", "K S", "KS0123", "KS1800604B120F929280000", "KS1800604B120F92928000000", "KS18 00604B120F9292800000", "KS03", "KS0", "KS00",
                 "KS0000", "KS00020009", "KS0002000DAB", "KS0003000CAB", "KSxx", "KS 0123\n\nKS0123"):
        line = len(text.split("\n"))
        refuses("wrap", {"optional": f"Line {line} is neither an optional block as it stands in a key block"}, padding="", optional=text)
    for text in ("KS 1800604B120F9292800000", "KS 18 00604B120F9292800000", "KS\t0cABCDEFGH", "KS 04", "KS 0002000CAB", "ID 0Aa test"):
        refuses("wrap", {"optional": "Line 1: the content begins with the length of the block."}, optional=text)
    for text in ("KS \u00e9", "KS a\u007fb", "KS a\u0000b", "KS08a\tbc"):
        refuses("wrap", {"optional": "a content of printable ASCII characters alone"}, optional=text)
    for text in ("PB 00", "PB0600", "KS 0123\nPB0600", "PB080000\nKS 0123"):
        refuses("wrap", {"optional": "Leave out a block PB"}, optional=text)
    refuses("wrap", {"optional": "99 at most"}, optional="KS 0123\n" * 100)
    refuses("wrap", {"optional": "at most 9999 characters"}, optional="KS " + "x" * 9990)
    choose(browser, "blocks")
    refuses("blocks", {"key": EMPTY, "data": EMPTY})
    refuses("blocks", {"data": "Whole blocks of 16"}, key=BASE, data="0123456789")
    refuses("blocks", {"iv": EMPTY}, mode="ctr", data="01")
    refuses("blocks", {"data": "An even number"}, iv="0123456789abcdef", data="012")
    refuses("blocks", {"data": EMPTY}, data=" ")
    refuses("blocks", {"iv": EMPTY}, mode="cbc", iv="", data="0123456789abcdef")
    choose(browser, "records")
    refuses("records", {"values": EMPTY}, writer="mysql", key="k")
    refuses("records", {"values": "Line 2: An even number"}, values="FF00\nFF0")
    refuses("records", {"iterations": "decimal digits"}, writer="jasypt", iterations="1e3", values="x")
    refuses("records", {"iterations": "not 1 to 2^32 - 1"}, iterations="0")
    choose(browser, "blocks")
    # What was wrong is forgotten at the next key.
    browser.run("document.getElementById('blocks-iv').focus()")
    browser.press("1")
    same(faults(browser)[0], [], "a fault that was typed over")


def one_line(browser):
    """Several lines that are pasted, dropped or typed into a field of one are refused, and nothing is put in; one line is taken, whatever
    line end it has behind it. Joined, these two components would be a key."""
    choose(browser, "check")
    halves = f"{BASE[:16]}\n{BASE[16:]}"
    for kind in ("paste", "drop", "beforeinput"):
        for text, is_refused in ((halves, True), (halves.replace("\n", "\r\n") + "\r\n", True),
                                 (halves.replace("\n", "\t"), True), (f"{BASE}\n", False), (BASE, False)):
            fill(browser, "check", key="")
            browser.run("document.activeElement.blur()")
            goes_on = browser.run("""
              const field = document.getElementById("check-key"), how = { bubbles: true, cancelable: true };
              const data = new DataTransfer();
              data.setData("text/plain", arguments[1]);
              return field.dispatchEvent({
                paste: () => new ClipboardEvent("paste", { ...how, clipboardData: data }),
                drop: () => new DragEvent("drop", { ...how, dataTransfer: data }),
                beforeinput: () => new InputEvent("beforeinput", { ...how, inputType: "insertText", data: arguments[1] }),
              }[arguments[0]]());""", kind, text)
            same(goes_on, not is_refused, f"{kind} of {text!r}")
            same(browser.run("return document.getElementById('check-key').value"), "", f"what {kind} of {text!r} puts in")
            said = [["check-key-fault", "One line without a tab is needed, and here are several lines or columns. Nothing was put in."]]
            if is_refused:
                same(faults(browser), [said, "check-key"], f"what is said of {kind} of {text!r}")
    # A field of several lines takes them.
    choose(browser, "components")
    same(browser.run("""
      const data = new DataTransfer();
      data.setData("text/plain", arguments[0]);
      return document.getElementById("components-components").dispatchEvent(new ClipboardEvent("paste", { cancelable: true, clipboardData: data }));""",
      halves), True, "a paste of components")


def by_keyboard(page):
    """From opening to the PIN key of a transaction, by keyboard alone."""
    browser = Browser()
    browser.open(page)
    seen = []
    for _ in range(40):
        browser.press(TAB)
        seen.append(browser.run("return document.activeElement.id || document.activeElement.textContent"))
        if seen[-1] == "dukpt-base":
            break
    same(seen[:1], ["Transaction keys (DUKPT)"], "the first stop")
    same(seen[-3:], ["clear", "dukpt-from", "dukpt-base"], "the way to the first field")
    browser.press(BASE + TAB + "FFFF9876543210E00001" + ENTER)
    same(answers(browser, "dukpt")["PIN key"].split(" ")[0], EXAMPLES["dukpt"]["PIN key"], "the PIN key by keyboard")
    browser.press(TAB + TAB + TAB)
    same(browser.run("return document.activeElement.getAttribute('aria-label')"), "Copy PIN key", "the button after the answer")
    outline = browser.run("return getComputedStyle(document.activeElement).outlineStyle")
    same(outline, "solid", "the focus is seen")
    # To a calculation further down, and a choice by its first letter.
    browser.run("""document.querySelector("nav a[href='#blocks']").focus()""")
    browser.press(ENTER)
    becomes(browser, "return document.activeElement.id", "blocks-title", "the title after a choice by keyboard")
    browser.press(TAB + "D" + TAB + TAB + "133457799bbcdff1" + TAB + "85e813540f0ab405")
    browser.press(TAB + ENTER)
    same(answers(browser, "blocks")["Plaintext"], "0123456789ABCDEF", "decryption by keyboard")
    browser.close()


def copies(browser, page):
    """Each answer has a button that puts it on the clipboard; where a page may not write there, the old way does."""
    for is_allowed in (True, False):
        browser.open(page)
        if not is_allowed:
            browser.run("navigator.clipboard.writeText = () => Promise.reject(new Error('not allowed'))")
        choose(browser, "dukpt")
        fill(browser, "dukpt", base=BASE, serial="FFFF9876543210E00001")
        browser.command("Browser.grantPermissions", permissions=["clipboardReadWrite", "clipboardSanitizedWrite"])
        buttons = browser.run("return [...document.querySelectorAll('#dukpt .copy')].map((it) => it.getAttribute('aria-label'))")
        same(len(buttons), 10, "the buttons")
        # The button says it for two seconds.
        browser.run("""
          const button = document.querySelector("#dukpt [aria-label='Copy PIN key']");
          button.focus();
          window.said = [];
          new MutationObserver(() => window.said.push(button.textContent)).observe(button, { childList: true });""")
        browser.press(ENTER)
        becomes(browser, "return [window.said[0], document.getElementById('said').textContent]",
                ["Copied", "Copied: PIN key"], f"what is said of a copy, allowed: {is_allowed}")
        same(browser.run("return navigator.clipboard.readText()"), EXAMPLES["dukpt"]["PIN key"], f"the clipboard, allowed: {is_allowed}")


def random_digits(browser):
    """The button fills in what the format takes, and each digit comes."""
    choose(browser, "pin")
    for format, digits in (("3", "ABCDEF"), ("1", "0123456789ABCDEF")):
        fill(browser, "pin", format=format, pin="1234", account=CARD, under="nothing")
        seen = browser.run("""
          const button = [...document.querySelectorAll("#pin button")].find((it) => it.textContent === "Random digits"), seen = [];
          for (let i = 0; i < 60; i++) { button.click(); seen.push(document.getElementById("pin-fill").value); }
          return seen;""")
        same(sorted(set("".join(seen))), sorted(digits), f"the random digits of format {format}")
        same(all(len(it) == 10 for it in seen), True, "ten of them")


def is_kept_clean(browser, page):
    """Labels, ids, no request, nothing on the console, and nothing left after clearing."""
    same(browser.run("return [...document.querySelectorAll('input, select, textarea')].filter((it) => it.labels.length !== 1).length"), 0, "labels")
    same(browser.run("const ids = [...document.querySelectorAll('[id]')].map((it) => it.id); return ids.length - new Set(ids).size"), 0, "ids")
    missing = browser.run("""
      return [...document.querySelectorAll("[aria-describedby], [aria-labelledby], label[for]")].flatMap((it) =>
        ["aria-describedby", "aria-labelledby", "for"].flatMap((name) => (it.getAttribute(name) ?? "").split(" "))
      ).filter((id) => id !== "" && document.getElementById(id) === null);""")
    same(missing, [], "what is referred to")
    for calculation in EXAMPLES:
        browser.run("document.querySelectorAll(`#${arguments[0]} .buttons button`)[1].click()", calculation)
    browser.run("document.getElementById('clear').click()")
    becomes(browser, "return [...document.querySelectorAll('input, textarea')].filter((it) => it.value !== '').length + document.querySelectorAll('dl').length",
            0, "what is left after clearing")
    becomes(browser, "return document.getElementById('state').textContent", "Every field is empty.", "what is said after clearing")
    address = pathlib.Path(page).resolve().as_uri()
    messages = [json.loads(entry["message"])["message"] for entry in browser.log("performance")]
    requests = [it["params"] for it in messages if it["method"] == "Network.requestWillBeSent"]
    # The browser's own first tab has others.
    sent = {it["request"]["url"].partition("#")[0] for it in requests if it["documentURL"].startswith(address)}
    same(sent, {address}, "the requests")
    same([entry["message"] for entry in browser.log("browser")], [], "the console")
    same(browser.run("return [localStorage.length, sessionStorage.length, document.cookie]"), [0, 0, ""], "what is kept")
    browser.run("""
      window.refused = [];
      document.addEventListener("securitypolicyviolation", (event) => window.refused.push(event.effectiveDirective));
      fetch(arguments[0]).catch(() => 0);
      new Image().src = arguments[0];
      document.body.append(Object.assign(document.createElement("script"), { textContent: "document.title = 'run'" }));
      document.body.append(Object.assign(document.createElement("iframe"), { src: arguments[0] }));""", f"http://127.0.0.1:{browser.port}/status")
    becomes(browser, "return window.refused.sort()", ["connect-src", "frame-src", "img-src", "script-src-elem"], "what the policy refuses")


def looks(page):
    """At 400 pixels nothing is cut off, in both colour schemes, with contrast."""
    for scheme in ("light", "dark"):
        browser = Browser(f"--force-prefers-color-scheme={scheme}", *(["--force-dark-mode"] if scheme == "dark" else []))
        browser.command("Emulation.setEmulatedMedia", features=[{"name": "prefers-color-scheme", "value": scheme}])
        browser.open(page)
        background = browser.run("return getComputedStyle(document.documentElement).colorScheme && matchMedia('(prefers-color-scheme: dark)').matches")
        same(background, scheme == "dark", "the scheme")
        same(contrasts(browser), [], f"the contrast, {scheme}")
        choose(browser, "unpin")
        browser.run("document.querySelectorAll('#unpin .buttons button')[1].click()")
        fill(browser, "unpin")
        browser.picture(f"wide-{scheme}")
        browser.command("Emulation.setDeviceMetricsOverride", width=400, height=860, deviceScaleFactor=1, mobile=False)
        for calculation in EXAMPLES:
            choose(browser, calculation)
            browser.run("document.querySelectorAll(`#${arguments[0]} .buttons button`)[1].click()", calculation)
            fill(browser, calculation)
            same(browser.run("return [innerWidth, document.documentElement.scrollWidth <= innerWidth]"), [400, True], f"the width of {calculation}")
            cut = browser.run("""
              return [...document.querySelectorAll("section:not([hidden]) *, nav *, header *, footer *")].filter((it) => {
                const box = it.getBoundingClientRect();
                return box.width > 0 && (box.left < 0 || box.right > 400.5) && !["OPTION"].includes(it.tagName);
              }).map((it) => it.outerHTML.slice(0, 80));""")
            same(cut, [], f"what is cut off in {calculation}")
        choose(browser, "dukpt")
        browser.picture(f"narrow-{scheme}")
        browser.close()


def contrasts(browser):
    """The texts whose contrast with what is behind them is below 4.5."""
    return browser.run("""
      const canvas = document.createElement("canvas").getContext("2d", { willReadFrequently: true });
      const parts = (colour) => {
        canvas.clearRect(0, 0, 1, 1); canvas.fillStyle = colour; canvas.fillRect(0, 0, 1, 1);
        return [...canvas.getImageData(0, 0, 1, 1).data];
      };
      const light = (colour) => {
        const [r, g, b] = parts(colour).map((it) => it / 255).map((it) => (it <= 0.04045 ? it / 12.92 : ((it + 0.055) / 1.055) ** 2.4));
        return 0.2126 * r + 0.7152 * g + 0.0722 * b;
      };
      const behind = (it) => {
        for (; it !== null; it = it.parentElement) {
          const colour = getComputedStyle(it).backgroundColor;
          if (parts(colour)[3] === 255) return colour;
        }
        return matchMedia("(prefers-color-scheme: dark)").matches ? "#121212" : "#ffffff";
      };
      return [...document.querySelectorAll("body *")].filter((it) => {
        if (!it.checkVisibility() || ![...it.childNodes].some((node) => node.nodeType === 3 && node.textContent.trim() !== "")) return false;
        const [a, b] = [light(getComputedStyle(it).color), light(behind(it))].sort((x, y) => y - x);
        return (a + 0.05) / (b + 0.05) < 4.5;
      }).map((it) => it.outerHTML.slice(0, 100));""")


def refusing(page):
    """A browser without WebAssembly, and damaged pages: one sentence, and nothing is offered."""
    def offers_nothing(browser, words, what):
        same(words in browser.run("return document.getElementById('state').textContent"), True,
             f"{what}: {browser.run('return document.getElementById(`state`).textContent')}")
        same(browser.run("return [document.querySelectorAll('form, nav a').length, document.getElementById('clear').hidden]"), [0, True], what)

    browser = Browser()
    with tempfile.TemporaryDirectory() as folder:
        text = pathlib.Path(page).read_text(encoding="utf-8")
        for name, changed, words in [*damaged(text), *patched(text)]:
            other = pathlib.Path(folder, "page.html")
            other.write_text(changed, encoding="utf-8")
            browser.open(other)
            offers_nothing(browser, words, name)
    # A browser of before lacks what the page unpacks the module by, too.
    browser.command("Page.addScriptToEvaluateOnNewDocument",
                    source="delete globalThis.WebAssembly; delete globalThis.DecompressionStream;")
    browser.open(page)
    offers_nothing(browser, "This page offers nothing, since this engine has no WebAssembly.", "no WebAssembly")
    browser.picture("no-webassembly")
    browser.close()


# Where the tests are ended from outside, the browser ends too.
signal.signal(signal.SIGTERM, lambda *_: sys.exit("ended"))
PAGE, KNOWN_ANSWERS, PICTURES = sys.argv[1], sys.argv[2], pathlib.Path(sys.argv[3])
PICTURES.mkdir(parents=True, exist_ok=True)
begun = Browser()
same(begun.open(PAGE).startswith("Ready: the library in this page computed "), True, "the page is ready")
examples(begun)
other_values(begun)
key_blocks(begun)
known_answers(begun)
each_fault(begun)
random_digits(begun)
one_line(begun)
is_kept_clean(begun, PAGE)
copies(begun, PAGE)
VERSION = begun.version
begun.close()
by_keyboard(PAGE)
looks(PAGE)
refusing(PAGE)
print(f"the page: {count} comparisons, in Chromium {VERSION}")
