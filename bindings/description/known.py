"""The calls of bindings/known_calls.txt, which says what its lines are, that C has: of each call of the header a function that makes it with
the words of a row, and the rows. Left out is what the types of C leave no place for: arrays of another length, numbers that are none of
their type, names that are no constants, and characters that are not ASCII."""

import json
import re
from dataclasses import dataclass, field

from sources.text import Refused

from .c import filled
from .statuses import NAMES, short

PLACE = "bindings/known_calls.txt"
# Calls that have other names in the header, and those of a class, whose names the header begins with that of the class.
RENAMED = {
    "DecimalTable": "decimal_table_init", "DecimalTable.of_any_variety": "decimal_table_init_any", "DukptTerminal": "dukpt_terminal_init",
    "is_weak_key": "weak_key_test", "key_block_optional_blocks": "key_block_optional_block", "unwrap_key_block": "key_block_unwrap",
    "wrap_key_block": "key_block_wrap",
}  # fmt: skip
CIPHERS = ("Des.", "TdesEde2.", "TdesEde3.")
OF_CLASSES = ("check_value", "check_values", "decrypt_each", "encrypt_each", "macs", "macs_each", "open_salted")
# Calls that the header does not have, that change what they are given, as those of a cipher do, and lists, whose count no known call says.
OTHERS = ("DukptTerminal.from_state", "dukpt_transaction_keys_from_base", "pad", "unpad", "with_odd_parity", "wrong_tags")
LISTS = ("check_values", "decrypt_each", "encrypt_each", "macs", "macs_each")
# The arguments that are given in places, if that is another order than the header's, or some have fields or go by name.
IN_PLACES = {
    "cms_wrap_key": ["protection", "key"], "key_block_wrap": ["protection", "header", "key"], "open_salted": ["password", "bytes"],
    "pbe_key": ["algorithm", "password", "salt", "iterations", "key_length"],
    "pbkdf2": ["hash", "password", "salt", "iterations", "key_length"], "pin_translate_to_0": ["incoming_format", "account", "block"],
    "pin_translate_to_1": ["block"], "pin_translate_to_3": ["incoming_format", "account", "fill", "block"],
}  # fmt: skip
# What may be left out.
DEFAULTS = {"account": "", "data": b"", "fill": b"", "hash": "sha256", "incoming_format": 1, "is_response": False, "iterations": 0, "optional": ""}

TEXT = r'"(?:[^"\\]|\\.)*"'
WORDS = re.compile(rf'(?:{TEXT}|[^\s"])+')
WORD = re.compile(rf"(x[0-9a-f]*|{TEXT}|[A-Z][A-Z_0-9]*)(?:\*([0-9]+))?(?:@([0-9]+)=(.+))?(?:<([0-9]+))?")


class NoPlace(Exception):
    """The types of C leave no place for a word."""


@dataclass
class Known:
    """A known call: the line that says it, its name in the header, its words, those by name, and the line of what comes of it."""

    line: str
    name: str
    words: list
    named: dict
    error: str = ""
    answers: list = field(default_factory=list)
    repeated: str = ""

    def refused(self, why):
        return Refused(f"{PLACE}: '{self.line}' {why}")


def each_of(words):
    """The words that a line beginning with `for` says."""
    if words[1:2] != ["but"]:
        return words
    but = [range(int(first), int(last or first) + 1) for first, _, last in (word.partition("-") for word in words[2:])]
    return [("x5a*" if words[0] == "bytes" else '"1"*') + str(length) for length in range(34) if not any(length in it for it in but)]


class Reader:
    def __init__(self, text):
        self.text, self.names = text, {}

    def value(self, word):
        """Bytes, a text, a number or a list; and of a table, a header and a class a pair of that word and what follows it."""
        whole, (kind, colon, of) = WORD.fullmatch(word), word.partition(":")
        if colon and re.fullmatch("[a-z_]+", kind):
            return kind, json.loads(of)
        if whole is None:
            return json.loads(word) if re.match(r"[\[\d-]|(true|false|null)$", word) else ("name", word)
        base, times, place, other, end = whole.groups()
        if base[0].isupper() and base not in self.names:
            raise Refused(f"{PLACE}: '{base}' is no name")
        value = self.names[base] if base[0].isupper() else bytes.fromhex(base[1:]) if base[0] == "x" else json.loads(base)
        value = value * int(times) if times else value
        if place:
            other = json.loads(f'"{other}"') if isinstance(value, str) else bytes.fromhex(other)
            value = value[: int(place)] + other + value[int(place) + 1 :]
        return value[: int(end)] if end else value

    def known(self, line, outcome):
        name, *words = WORDS.findall(line)
        it = Known(line, name, [], {})
        for word in words:
            by_name, _, value = word.partition("=")
            if re.fullmatch("[a-z_]+", by_name) and value:
                it.named[by_name.removesuffix("_name")] = self.value(value)
            else:
                it.words.append(self.value(word))
        if outcome[0] == "!":
            it.error = outcome.split()[1]
        else:
            it.answers = [self.value(word) for word in WORDS.findall(outcome)[1:]]
        return it

    def calls(self):
        outcome, each = "", [""]
        for line in self.text.split("\n"):
            if line[:1] in ("=", "!"):
                outcome = line
            for call in line.strip().split(" ; ") if line and line[0] not in "=!#" else []:
                head, _, tail = call.partition(" = ")
                if call.startswith("for "):
                    each = each_of(WORDS.findall(call)[1:])
                elif re.fullmatch("[A-Z_]+", head):
                    self.names[head] = self.value(tail)
                elif tail:
                    yield self.known(head, f"= {tail}")
                else:
                    for word in each if "?" in call else [""]:
                        it = self.known(call.replace("?", word), outcome)
                        it.repeated = word if re.fullmatch(r'(x5a|"1")\*[0-9]+', word) else ""
                        yield it


def snake(name):
    return re.sub(r"(?<!^)(?=[A-Z])", "_", name).lower()


def optional_of(blocks):
    """Optional blocks as a text: each with its name, its length and its content."""
    if any(len(name) != 2 for name, _ in blocks):
        raise NoPlace
    return "".join(f"{name}{len(content) + 4:02X}{content}" for name, content in blocks)


def of_header(it):
    """The calls of the header that a known call is: one, or of a list of optional blocks one for each, and one more."""
    if it.name in OTHERS + LISTS or it.name.startswith(CIPHERS):
        return
    first, name = it.words[0] if it.words else None, RENAMED.get(it.name, it.name)
    if it.name in OF_CLASSES and isinstance(first, tuple):
        it.words, name = it.words[1:], f"{snake(first[1])}_{it.name}"
    elif name[0].isupper():
        name = f"{snake(name)}_init"
    elif name in ("combine", "equal_but_parity") and it.error == "KeyLength":
        return
    elif name == "equal_but_parity":
        it.words.append(len(first))
    elif name == "combine":
        name, it.words = f"combine_{len(first)}", [*it.words[:2], b"".join(it.words[2:]), len(it.words[2:])]
    elif name == "key_block_wrap":
        it.named["optional"] = optional_of(it.named.get("optional", []))
        it.named.setdefault("padding", bytes(max(30 - len(it.words[2]), 0)))
    elif name == "key_block_optional_block":
        at = 16
        for place, (block, content) in enumerate(it.answers[0] if it.answers else []):
            at += len(content) + 4
            yield Known(it.line, name, [*it.words, place], {}, "", [block, at - len(content), len(content)])
        it.words, it.error = [*it.words, len(it.answers[0]) if it.answers else 0], it.error or "NoOptionalBlock"
    yield Known(it.line, name, it.words, it.named, it.error, it.answers, it.repeated)


class Inputs:
    """What a call of the header reads, in the order of its words, and what it writes; `made` are its arguments."""

    def __init__(self, header, call):
        self.header, self.names, self.types, self.written, self.made = header, [], [], [], []
        for it in call.parameters:
            struct = header.structs.get(it.type.struct)
            if it.type.is_pointer and not it.type.is_const:
                self.made.append(f"(void *)outputs[{len(self.written)}]")
                self.written.append(it)
            elif struct and len(struct.fields) > 1:
                fields = []
                for one in struct.fields:
                    made = self._given(one, fields and struct.fields[len(fields) - 1])
                    fields.append(f".{one.name} = {made}")
                self.made.append(f"&(cukvashe_{it.type.struct}){{{', '.join(fields)}}}")
            else:
                self.made.append(self._given(it, call.parameters[len(self.made) - 1] if self.made else None))

    def _given(self, it, before):
        is_length = before and before.type.is_pointer and before.type.is_const and not before.type.sizes
        if is_length and it.type.base == "size_t" and it.name in ("length", f"{before.name}_length"):
            return f"given[{len(self.names) - 1}].length"
        self.names.append(it.name)
        self.types.append(it.type)
        word = f"given[{len(self.names) - 1}]"
        if it.type.is_pointer:
            return f"{word}.at"
        return f"*(const {it.type.base} *){word}.at" if it.type.struct else f"{word}.number"

    def words_of(self, it):
        """The words of a row, of a known call."""
        places = IN_PLACES.get("open_salted" if it.name.endswith("_open_salted") else it.name)
        given = dict(zip(places or self.names, it.words)) | it.named
        written = "".join(one for one in it.answers if isinstance(one, str)) or b"".join(one for one in it.answers if isinstance(one, bytes))
        given.setdefault("capacity", 200 if it.error else len(written) + isinstance(written, str))
        missing = [name for name in self.names if name not in given and name not in DEFAULTS]
        if missing or len(it.words) > len(places or self.names) or not set(it.named) <= set(self.names):
            raise it.refused(f"does not have the words of cukvashe_{it.name}: {', '.join(self.names)}")
        return [self._word(it, name, kind, given.get(name, DEFAULTS.get(name))) for name, kind in zip(self.names, self.types)]

    def _word(self, it, name, kind, value):
        is_char = kind.base == "char" or name in ("account", "optional")
        if kind.struct == "decimal_table" and isinstance(value, tuple) and value[0] in ("table", "any_table"):
            return f"{value[0][0]}{value[1]}"
        if kind.struct == "key_block_fields" and isinstance(value, tuple) and value[0] == "header":
            return self.header_of(value[1])
        if kind.is_pointer and isinstance(value, str if is_char else bytes):
            if kind.sizes and len(value) != kind.sizes[0]:
                raise NoPlace
            return text_of(value) if is_char else f"x{value.hex()}"
        if name in ("hash", "method") and isinstance(value, str):
            value = next((one.number for one in self.header.constants if one.name == value.upper() and one.name != value), None)
        least, most = {"int": (-(2**31), 2**31), "size_t": (0, 2**64), "bool": (0, 2)}.get(kind.base, (0, 0))
        if kind.is_pointer or not isinstance(value, (int, type(None))):
            raise it.refused(f"has a word for '{name}' that cukvashe_{it.name} does not take")
        if value is None or not least <= value < most:
            raise NoPlace
        return f"#{int(value)}"

    def header_of(self, fields):
        """The bytes of a struct of a header's fields, of which texts end with a zero byte."""
        sizes = [one.type.sizes for one in self.header.structs["key_block_fields"].fields]
        if not all(one.isascii() and len(one) == (size[0] - 1 if size else 1) for one, size in zip(fields, sizes)):
            raise NoPlace
        return "x" + b"".join(one.encode() + b"\0" * bool(size) for one, size in zip(fields, sizes)).hex()

    def written_of(self, it):
        """What a call writes, as words that begin with the number of bytes if zeros follow."""
        answers, last = list(it.answers), ""
        for one in self.written:
            if one.type.base == "size_t" and not (answers and isinstance(answers[0], int)):
                yield f"#{len(last)}"
                continue
            last = answers.pop(0) if answers else None
            if isinstance(last, tuple) and last[0] == "header":
                yield self.header_of(last[1])
            elif isinstance(last, str if one.type.base == "char" else bytes):
                size = one.type.sizes[0] if one.type.sizes else len(last) + ("capacity" in self.names and isinstance(last, str))
                yield f"{size if size > len(last) else ''}{text_of(last) if isinstance(last, str) else 'x' + last.hex()}"
            elif isinstance(last, int):
                yield f"#{last}"
            else:
                raise it.refused(f"does not say what cukvashe_{it.name} writes")
        if answers:
            raise it.refused(f"says more than cukvashe_{it.name} writes")


def text_of(text):
    """A text as a word: its characters, or its bytes if C would write some otherwise."""
    if not text.isascii():
        raise NoPlace
    escaped = json.dumps(text)[1:-1]
    return f"x{text.encode().hex()}" if "\\u" in escaped else f"={escaped}"


class Table:
    """The functions and the rows, from the header and the known calls."""

    def __init__(self, header, text):
        self.header, self.inputs, self.rows = header, {}, {}
        self.statuses = {NAMES.get(short(it)) or "".join(word.capitalize() for word in short(it).split("_")): it.name for it in header.statuses}
        for said in Reader(text).calls():
            try:
                for it in of_header(said):
                    self._add(it)
            except NoPlace:
                if not said.error:
                    raise said.refused("has a word that C leaves no place for, and no error") from None

    def _add(self, it):
        if it.name not in self.header.calls:
            raise it.refused("is like no call of the header")
        inputs = self.inputs.setdefault(it.name, Inputs(self.header, self.header.calls[it.name]))
        words = inputs.words_of(it)
        if self._is_of_others(it):
            return
        status = self._status(it)
        written = [] if status != "CUKVASHE_OK" else list(inputs.written_of(it))
        base, _, times = it.repeated.replace('"1"', "=1").partition("*")
        each = [f"{base}*" if it.repeated and one == base[0] + base[1:] * int(times) else one for one in words]
        self.rows.setdefault((it.name, status, tuple(each), tuple(written)), set()).add(int(times) if each != words else 0)

    @staticmethod
    def _is_of_others(it):
        """C derives keys of no bytes, takes 0 iterations for none, and knows no length of fill digits."""
        derives = it.error == "KeyLength" and it.name in ("pbkdf2", "bytes_to_key")
        return derives or it.error == "FillLength" or it.named.get("iterations") == 0

    def _status(self, it):
        if it.error:
            if it.error not in self.statuses:
                raise it.refused(f"has the error {it.error}, which is no status")
            return f"CUKVASHE_{self.statuses[it.error]}"
        if it.name == "weak_key_test":
            return "CUKVASHE_ERR_WEAK_KEY" if it.answers.pop() else "CUKVASHE_OK"
        if self.header.calls[it.name].result.base == "bool":
            return str(it.answers[0]).lower()
        if it.answers == [None]:
            return "CUKVASHE_ERR_NO_SERIAL"
        if it.answers == [("name", "right")]:
            it.answers.pop()
        return "CUKVASHE_OK"

    def lines(self):
        yield "/* Each call that is known, with the words of a row, and the rows: of bindings/known_calls.txt, made by bindings/describe. */"
        for name in dict.fromkeys(name for name, *_ in self.rows):
            call, made = self.header.calls[name], ", ".join(self.inputs[name].made)
            twin = name.replace("_verify", "_is_pin")
            if twin != name and twin in self.header.calls:
                body = f"return both(cukvashe_{name}({made}), cukvashe_{twin}({made}))"
            else:
                body = f"cukvashe_{name}({made}); return CUKVASHE_OK" if call.result.base == "void" else f"return cukvashe_{name}({made})"
            yield filled(f"static int known_{name}(void) {{ {body}", "; }")
        yield "static const struct known rows[] = {"
        for (name, status, words, written), lengths in self.rows.items():
            listed = [", ".join(f'"{it}"' for it in some) or "0" for some in (words, written)]
            yield filled(f"  {{KNOWN({name}), {status}, {{{listed[0]}}}, {{{listed[1]}}}, {sum(1 << it for it in lengths):#x}", "},")
        yield "};"
