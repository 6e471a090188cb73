#!/usr/bin/env python3
"""beside_native.py: reads random calls from standard input, a line for each, makes the same by the package for Python over the native
library, and compares answers, names of errors and their texts."""

import collections
import dataclasses
import json
import re
import sys

import cukvashe_des


def given(word):
    """An argument as Python takes it."""
    if isinstance(word, list):
        return [given(it) for it in word]
    if not isinstance(word, dict):
        return word
    if "bytes" in word:
        return bytes.fromhex(word["bytes"])
    if "class" in word:
        return getattr(cukvashe_des, word["class"])
    if "header" in word:
        return cukvashe_des.KeyBlockHeader(*word["header"])
    if "options" in word:
        return {snake(name): given(it) for name, it in word["options"].items()}
    if "table" in word:
        return cukvashe_des.DecimalTable(word["table"])
    name, key = word["cipher"]
    return getattr(cukvashe_des, name)(given(key))


def written(answer):
    """An answer as the lines have it."""
    if isinstance(answer, (bytes, bytearray)):
        return {"bytes": answer.hex()}
    if isinstance(answer, cukvashe_des.KeyBlockHeader):
        return {"header": list(dataclasses.astuple(answer))}
    if isinstance(answer, tuple) and isinstance(answer[0], cukvashe_des.KeyBlockHeader):
        return {"options": {"header": written(answer[0]), "key": written(answer[1])}}
    if isinstance(answer, tuple):
        return list(answer)
    return [written(it) for it in answer] if isinstance(answer, list) else answer


def snake(name):
    return name if name.islower() else re.sub("[A-Z]|(?<=[a-z])[0-9]", lambda it: "_" + it[0].lower(), name)


def words_of(error):
    """The text of an error, in which a call has its name in JavaScript."""
    return re.sub("(?<=[a-z])_([a-z])", lambda it: it[1].upper(), str(error))


def accepts(call, tag):
    try:
        call(tag)
    except cukvashe_des.TagMismatchError:
        return False
    return True


def mac_of(kind, arguments, pieces, length):
    mac = kind(*arguments)
    for piece in pieces:
        mac.update(piece)
    tag = mac.digest()
    other = bytes(byte ^ 1 for byte in tag)
    return [tag, accepts(mac.verify, tag[:length]), accepts(mac.verify_truncated_left, tag[:length]), accepts(mac.verify, other)]


def stream_of(kind, cipher, named, calls):
    """What the calls of a stream answer; of one that is refused the name of its error."""
    stream, answers = kind(cipher, **named), []
    for call, *arguments in calls:
        try:
            answers.append(getattr(stream, snake(call))(*arguments))
        except cukvashe_des.Error as error:
            answers.append(type(error).__name__[: -len("Error")])
    return answers


def answer_of(name, *words):
    arguments = [given(word) for word in words]
    first, _, method = name.partition(".")
    if first == "Stream":
        return stream_of(getattr(cukvashe_des, method), *arguments)
    if method:
        call = getattr(getattr(cukvashe_des, first)(arguments.pop(0)), snake(method))
    elif first[0].isupper():
        return mac_of(getattr(cukvashe_des, first), *arguments)
    else:
        call = getattr(cukvashe_des, snake(first))
    options = arguments.pop() if arguments and isinstance(arguments[-1], dict) else {}
    return call(*arguments, **options)


calls, errors = collections.Counter(), collections.Counter()
for line in sys.stdin:
    said = json.loads(line)
    try:
        answer = written(answer_of(*said["call"]))
        # What verifies is true here, and says nothing in Python.
        here = {"answer": True if said["call"][0] in ("pvvVerify", "pinOffsetVerify") else answer}
    except cukvashe_des.Error as error:
        name = type(error).__name__[: -len("Error")]
        here = {"error": [name, words_of(error)]}
        errors[name] += 1
    there = {key: value for key, value in said.items() if key != "call"}
    if here != there:
        sys.exit(f"{said['call']}: the module gives {there}, the native library {here}")
    calls[said["call"][0]] += 1
least = min(calls.items(), key=lambda it: it[1])
print(f"beside the native library: {sum(calls.values())} calls of {len(calls)} kinds, each at least {least[1]} times; "
      f"{sum(errors.values())} errors of {len(errors)} names")
