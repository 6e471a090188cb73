"""The calls of bindings/known_calls.txt, which says what its lines are, with each text as a text and as bytes."""

import json
import re
import unittest

import cukvashe_des

from .values import LENGTHS, lines_of

# Calls of which a text is a name, and a header's fields, and not data: they take no bytes for it.
OF_NAMES = ("pad", "unpad", "pbkdf2", "bytes_to_key", "open_salted", "pbe_key", "wrap_key_block")

TEXT = r'"(?:[^"\\]|\\.)*"'
WORDS = re.compile(rf'(?:{TEXT}|[^\s"])+')
WORD = re.compile(rf"(x[0-9a-f]*|{TEXT}|[A-Z][A-Z_0-9]*)(?:\*([0-9]+))?(?:@([0-9]+)=(.+))?(?:<([0-9]+))?")
MADE = {"table": cukvashe_des.DecimalTable, "any_table": cukvashe_des.DecimalTable.of_any_variety,
        "header": lambda fields: cukvashe_des.KeyBlockHeader(*fields)}


def each_of(words):
    """The words that a line beginning with `for` says."""
    if words[1:2] != ["but"]:
        return words
    but = [range(int(first), int(last or first) + 1) for first, _, last in (word.partition("-") for word in words[2:])]
    return [("x5a*" if words[0] == "bytes" else '"1"*') + str(length) for length in LENGTHS if not any(length in these for these in but)]


def of_a_cipher(kind, name):
    """The call of a cipher, whose key is its first argument here."""
    return lambda key, *arguments, **named: getattr(kind(key), name)(*arguments, **named)


class KnownCalls(unittest.TestCase):
    def setUp(self):
        self.names, self.made = {"right": None}, 0

    def value(self, word):
        whole, (kind, _, of) = WORD.fullmatch(word), word.partition(":")
        if kind in MADE:
            return MADE[kind](json.loads(of))
        if whole is None:
            return self.names[word] if word in self.names else getattr(cukvashe_des, word, None) or json.loads(word)
        base, times, place, other, end = whole.groups()
        value = self.names[base] if base[0].isupper() else bytes.fromhex(base[1:]) if base[0] == "x" else json.loads(base)
        value = value * int(times) if times else value
        if place:
            other = json.loads(f'"{other}"') if isinstance(value, str) else bytes.fromhex(other)
            value = value[: int(place)] + other + value[int(place) + 1 :]
        return value[: int(end)] if end else value

    def comes_of(self, line, outcome):
        """A call, and the line that says what comes of it."""
        name, *words = WORDS.findall(line)
        call, places, named = cukvashe_des, [], {}
        for part in name.split("."):
            call = of_a_cipher(call, part) if isinstance(call, type) and issubclass(call, cukvashe_des.Cipher) else getattr(call, part)
        for word in words:
            by_name, _, value = word.partition("=")
            if re.fullmatch("[a-z_]+", by_name) and value:
                named[by_name] = tuple(map(tuple, self.value(value))) if value[0] == "[" else self.value(value)
            else:
                places.append(self.value(word))
        self.made += 1
        forms = [places]
        if name not in OF_NAMES and all(word.isascii() for word in places if isinstance(word, str)):
            forms.append([word.encode() if isinstance(word, str) else word for word in places])
        for arguments in forms:
            if outcome.startswith("!"):
                fault, _, sentence = outcome[2:].partition(" ")
                with self.assertRaises(getattr(cukvashe_des, fault + "Error"), msg=line) as caught:
                    call(*arguments, **named)
                self.assertEqual(str(caught.exception), sentence, line)
                continue
            answer, wanted = call(*arguments, **named), [self.value(word) for word in WORDS.findall(outcome)[1:]]
            if isinstance(answer, list):
                answer = [list(pair) for pair in answer]
            self.assertEqual(list(answer) if isinstance(answer, tuple) else [answer], wanted, line)

    def test_known_calls(self):
        outcome, words = "", [""]
        for line in lines_of("bindings", "known_calls.txt"):
            if line[0] in "=!":
                outcome = line.rstrip("\n")
                continue
            for call in line.strip().split(" ; "):
                if call.startswith("for "):
                    words = each_of(WORDS.findall(call)[1:])
                    continue
                head, _, tail = call.partition(" = ")
                if re.fullmatch("[A-Z_]+", head):
                    self.names[head] = self.value(tail)
                elif tail:
                    self.comes_of(head, f"= {tail}")
                for word in words if "?" in call else [""] * (not tail):
                    number = re.search("[0-9]*$", word)[0]
                    self.comes_of(call.replace("?", word), outcome.replace("#", number))
        self.assertGreater(self.made, 5000)
