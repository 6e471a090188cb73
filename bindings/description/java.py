"""What Java has of the header: the native calls with the C that copies arrays for them, numbers, statuses, and the calls of wrappers.py.

An array of Java stands for each pointer, with the length that C takes beside it; a struct without pointers is its bytes, a context its
words, and a struct with pointers is given field by field. Messages are the bytes of all, and the length of each."""

import math
import re
import textwrap
from dataclasses import dataclass, field

from sources.text import Refused

from .header import PLACE
from .javascript import camel
from .statuses import SAID, capitalized, short
from .wrappers import wrapped

# C for tests and buffers of its own, which Java does not take; and how the names of columns of databases begin, which it does not have.
NOT_TAKEN = {"wipe", "strerror", "pad", "compare_tags"}
COLUMNS = ("mysql_", "pgcrypto_", "jasypt_")
# Of the calls with a context, those that are made here: the others are the ones whose speed counts, which are written by hand.
WITH_CONTEXT = ("_init", "_init_no_tables", "_records", "stream_begin")

# By the bytes of an element: the type of an array in Java, in C, and in the name of a method's type.
ARRAYS = {1: ("byte[]", "jbyteArray", "[B"), 8: ("long[]", "jlongArray", "[J")}
# By their bases in C: the same of a number, and what C makes of it.
NUMBERS = {
    "int": ("int", "jint", "I", "{}"), "size_t": ("long", "jlong", "J", "(size_t){}"), "bool": ("boolean", "jboolean", "Z", "{} != JNI_FALSE"),
}  # fmt: skip
RESULTS = {"int": ("int", "jint", "I"), "bool": ("boolean", "jboolean", "Z"), "void": ("void", "void", "V")}
ELEMENTS = {"uint8_t": 1, "char": 1, "size_t": 8}

# The classes of calls that are made, by the beginning of their names, and the calls whose names in Java are others.
CLASSES = {"emv_": "Emv", "dukpt_": "Dukpt", "cvv": "CardVerification", "": "Keys"}
NAMES = {"cvv": "cvv", "key_check_value": "checkValue", "short_key_check_value": "shortCheckValue"}
PACKAGE = "bindings/java/src/main/java/cukvashe/des"


@dataclass
class Native:
    """A call as Java declares it: its arguments there, the arrays that C copies, and the words that it hands on."""

    call: object
    given: list = field(default_factory=list)  # name and row of ARRAYS or NUMBERS
    arrays: list = field(default_factory=list)  # the initializer of a `struct array`
    words: list = field(default_factory=list)
    before: list = field(default_factory=list)
    after: list = field(default_factory=list)

    @property
    def name(self):
        return camel(self.call.name)

    @property
    def result(self):
        return RESULTS[self.call.result.base]

    @property
    def signature(self):
        return f"({''.join(row[2] for _, row in self.given)}){self.result[2]}"


def bytes_of(struct):
    """The bytes of a struct of characters, or None of another."""
    if any(ELEMENTS.get(it.type.base) != 1 or it.type.is_pointer and not it.type.sizes for it in struct.fields):
        return None
    return sum(math.prod(it.type.sizes) for it in struct.fields)


class Reader:
    """Makes a `Native` of a call."""

    def __init__(self, header, call):
        self.header, self.call, self.made, self.lengths = header, call, Native(call), None
        self.made.words = self._arguments(call.parameters)

    def _array(self, name, element, size, is_written):
        at = len(self.made.arrays)
        self.made.given.append((camel(name), ARRAYS[element]))
        self.made.arrays.append(f"{{{camel(name)}, {element}, {size}, {str(is_written).lower()}, NULL, 0}}")
        return f"arrays[{at}]"

    def _arguments(self, parameters, prefix=""):
        """The words for parameters, or for the fields of a struct, each after `.NAME = `."""
        words, last = [], None
        for it, following in zip(parameters, [*parameters[1:], None]):
            kind, start = it.type, f".{it.name} = " if prefix else ""
            struct = self.header.structs.get(kind.struct)
            if struct is not None and struct.name == "message":
                self._messages()
                words.append("messages")
                last = None
            elif struct is not None and not struct.words and bytes_of(struct) is None:
                words.append(self._by_fields(it, struct))
                last = None
            elif struct is not None:
                is_by_value = not kind.is_pointer
                array = self._array(it.name, 8 if struct.words else 1, f"sizeof({kind.base})", kind.is_pointer and not kind.is_const)
                words.append(f"{start}*(const {kind.base} *){array}.at" if is_by_value else f"{array}.at")
                last = None
            elif kind.is_pointer:
                element = ELEMENTS.get(kind.base)
                if element is None:
                    raise Refused(f"{PLACE}: Java has no array for '{it.name}' of cukvashe_{self.call.name}")
                # What is written without a length beside it is one element.
                is_one = not kind.sizes and not kind.is_const and (following is None or following.type.is_pointer or following.type.base != "size_t")
                size = element * math.prod(kind.sizes) if kind.sizes else element if is_one else 0
                array = self._array(it.name, element, size, not kind.is_const)
                words.append(f"{start}{array}.at")
                last = None if size else (array, it.name)
            elif kind.base == "size_t" and last is not None:
                words.append(f"{start}{self._length(it.name, *last)}")
                last = None
            elif it.name == "count" and self.lengths:
                words.append(f"{self.lengths}.length")
            else:
                if kind.base not in NUMBERS:
                    raise Refused(f"{PLACE}: Java has no number for '{it.name}' of cukvashe_{self.call.name}")
                row = NUMBERS[kind.base]
                self.made.given.append((camel(it.name), row))
                words.append(start + row[3].format(camel(it.name)))
                last = None
        return words

    def _length(self, name, array, of):
        """The length that stands beside an array: of keys without one the number that there are."""
        if of == "keys" and name == "count":
            return f"{array}.length / CUKVASHE_{self.call.name.rsplit('_', 2)[0].upper()}_KEY_SIZE"
        return f"{array}.length"

    def _messages(self):
        """All messages one after the other, and the length of each."""
        all_bytes = self._array("bytes", 1, 0, False)
        self.lengths = self._array("lengths", 8, 0, False)
        self.made.before.append(f"cukvashe_message *messages = messages_of(env, &{all_bytes}, &{self.lengths});")
        self.made.after.append("free(messages);")

    def _by_fields(self, parameter, struct):
        words = self._arguments(struct.fields, parameter.name)
        self.made.before.append(f"const {parameter.type.base} {parameter.name} = {{{', '.join(words)}}};")
        return f"&{parameter.name}"


def natives(header):
    """The native calls that are made, in the order of the header."""
    for it in header.calls.values():
        has_context = any(header.structs[one.type.struct].words for one in it.parameters if one.type.struct)
        is_copy = it.name.endswith("_to")
        is_taken = it.name not in NOT_TAKEN and not it.name.startswith(COLUMNS) and not is_copy
        if it.parameters and is_taken and (not has_context or it.name.endswith(WITH_CONTEXT)):
            yield Reader(header, it).made


def broken(words, first, indent, width, end):
    """Words after a beginning, in lines of a width, none of which breaks a word."""
    lines, line = [], first
    for at, word in enumerate(words):
        word += end if at == len(words) - 1 else ","
        space = "" if at == 0 else " "
        if len(line) + len(space + word) > width:
            lines.append(line)
            line, space = indent, ""
        line += space + word
    return [*lines, line]


def declarations(header):
    """The numbers of the header, and the native calls."""
    yield f'  static final String VERSION = "{header.version}";'
    for it in header.constants:
        if it not in header.statuses and not it.name.startswith("VERSION"):
            yield f"  static final int {it.name} = {it.number};"
    for it in header.structs.values():
        if it.words or bytes_of(it):
            yield f"  static final int {it.name.upper()}_{f'WORDS = {it.words}' if it.words else f'SIZE = {bytes_of(it)}'};"
    for it in natives(header):
        yield ""
        words = [f"{row[0]} {name}" for name, row in it.given]
        yield from broken(words, f"  static native {it.result[0]} {it.name}(", "      ", 120, ");")


def c_call(it):
    """The function in C of a native call."""
    words = ["JNIEnv *env", "jclass class", *(f"{row[1]} {name}" for name, row in it.given)]
    yield ""
    yield from broken(words, f"static {it.result[1]} JNICALL call_{it.call.name}(", "    ", 120, ") {")
    yield "  (void)class;"
    yield "  struct array arrays[] = {"
    yield from (f"    {one}," for one in it.arrays)
    yield "  };"
    yield "  struct copies copies;"
    is_void = it.result[0] == "void"
    yield f"  if (!copied(env, &copies, arrays, LENGTH_OF(arrays))) return{'' if is_void else ' 0'};"
    if any("messages_of" in one for one in it.before):
        messages, = it.before
        yield f"  {messages}"
        yield "  int answer = CUKVASHE_ERR_COUNTS;"
        yield "  if (messages != NULL)"
        yield from broken(it.words, f"    answer = cukvashe_{it.call.name}(", "        ", 120, ");")
    else:
        for line in it.before:
            yield from textwrap.wrap(f"  {line}", 120, subsequent_indent="      ", break_long_words=False, break_on_hyphens=False)
        start = "  " if is_void else f"  {it.call.result.base} answer = "
        yield from broken(it.words, f"{start}cukvashe_{it.call.name}(", "      ", 120, ");")
    yield from (f"  {line}" for line in it.after)
    succeeds = "answer == CUKVASHE_OK" if it.call.result.base == "int" else "true"
    yield f"  given_back(env, &copies, arrays, LENGTH_OF(arrays), {succeeds});"
    if not is_void:
        yield "  return answer;"
    yield "}"


def definitions(header):
    """The native calls in C, and their rows of the table that registers them."""
    calls = list(natives(header))
    yield "/* The native calls that copy arrays for a call of cukvashe_des.h: made of it by bindings/describe. */"
    for it in calls:
        yield from c_call(it)
    yield ""
    yield "#define CALLS_OF_HEADER \\"
    rows = [f'  {{(char *)"{it.name}", (char *)"{it.signature}", (void *)call_{it.call.name}}}' for it in calls]
    yield from (f"{row}, \\" for row in rows[:-1])
    yield rows[-1]


def javadoc(text, indent, tags=()):
    """A comment of Javadoc."""
    lines = textwrap.wrap(text, 112 - len(indent), break_long_words=False, break_on_hyphens=False)
    if len(lines) == 1 and not tags:
        return [f"{indent}/** {lines[0]} */"]
    # A link stays in one line.
    tags = [re.sub(r"\{@\w+ [^}]*\}", lambda found: found[0].replace(" ", "\0"), it) for it in tags]
    tagged = [line.replace("\0", " ") for it in tags for line in textwrap.wrap(it, 112 - len(indent), subsequent_indent="    ", break_on_hyphens=False)]
    return [f"{indent}/**", *(f"{indent} * {it}" for it in lines), *([f"{indent} *"] * bool(tagged)), *(f"{indent} * {it}" for it in tagged), f"{indent} */"]


def statuses(header):
    """The statuses, in the order of their numbers."""
    yield "package cukvashe.des;"
    yield ""
    yield f"/** Why a call refuses what it is given: the statuses of the header for C, {SAID}. */"
    yield "public enum Status {"
    *others, last = header.statuses
    for it in header.statuses:
        yield from javadoc(f"{capitalized(it.text)}.", "  ")
        first, text = f"  {short(it)}(", f'"{it.text}"){";" if it is last else ","}'
        yield from [first + text] if len(first + text) <= 140 else [first, f"      {text}"]
    yield from [
        "", "  private static final Status[] BY_NUMBER = values();", "", "  private final String sentence;", "",
        "  Status(String sentence) {", "    this.sentence = sentence;", "  }", "",
        "  /** What is wrong, in words. */", "  public String sentence() {", "    return sentence;", "  }", "",
        "  static Status of(int number) {", "    return BY_NUMBER[number];", "  }", "}",
    ]  # fmt: skip


# ---- The calls of wrappers.py


def class_of(name):
    """The class of a call, and its name there."""
    beginning = next(it for it in CLASSES if name.startswith(it))
    return CLASSES[beginning], NAMES.get(name) or camel(name.removeprefix(beginning))


def method(it):
    """A method that takes keys as SecretKey, texts as String and other bytes as arrays, and gives a key, a text or bytes."""
    is_key = it.is_secret and not it.is_text
    types = {"key": "SecretKey", "text": "String", "response": "Direction"}
    names = {one.name: "direction" if one.kind == "response" else camel(one.name) for one in it.arguments}
    given = [f"{types.get(one.kind, 'byte[]')} {names[one.name]}" for one in it.arguments]
    listed = list(dict.fromkeys(["KEY_LENGTH"] * any(one.kind == "key" for one in it.arguments) + it.statuses))
    lengths = [f"{one.what.removeprefix('the ')} does not have {one.size} bytes" for one in it.arguments if one.kind == "array"]
    tags = [f"@throws CukvasheException {', '.join(f'{{@link Status#{one}}}' for one in listed)}"] * bool(listed)
    tags += [f"@throws IllegalArgumentException if {' or '.join(lengths)}"] * bool(lengths)
    yield ""
    yield from javadoc(re.sub("`(.*?)`", r"{@code \1}", f"{it.said} {it.note('java')}".strip()), "  ", tags)
    result = "SecretKey" if is_key else "String" if it.is_text else "byte[]"
    first = f"  public static {result} {class_of(it.name)[1]}("
    yield from broken(given, first, "      ", 120, ") throws CukvasheException {")
    keys = [one for one in it.arguments if one.kind == "key"]
    is_derived = is_key and [one.sizes for one in keys] == [str(it.size)]
    words, secrets = [], []
    for one in it.arguments:
        name = names[one.name]
        if one.kind == "key":
            secrets.append(f"Secret copied{capitalized(name)} = Secret.key({name}, {one.sizes})")
            words.append("key" if is_derived else f"copied{capitalized(name)}.bytes")
        elif one.kind == "array":
            yield f'    Secret.sized({name}, {one.size}, "{one.what}");'
            words.append(name)
        elif one.kind == "response":
            words.append(f"{name}.isResponse()")
        elif one.kind == "text":
            words.append(f"Secret.text({name})")
        else:
            words.append(name)
    if is_derived:
        first = f"    return Secret.derived({it.size}, {names[keys[0].name]}, (key, made) ->"
        call = f"Native.{camel(it.name)}({', '.join([*words, 'made'])})"
        call = f"CukvasheException.check({call}));" if it.returns_status else f"{call});"
        yield from [f"{first} {call}"] if len(f"{first} {call}") <= 120 else [first, f"        {call}"]
        yield "  }"
        return
    secrets.append(f"Secret made = Secret.buffer({it.size})")
    if len(secrets) == 1:
        yield f"    try ({secrets[0]}) {{"
    else:
        yield from [f"    try ({secrets[0]};", *(f"        {one};" for one in secrets[1:-1]), f"        {secrets[-1]}) {{"]
    first = f"      {'CukvasheException.check(' * it.returns_status}Native.{camel(it.name)}("
    yield from broken([*words, "made.bytes"], first, "          ", 120, f"){')' * it.returns_status};")
    yield f"      return made.{'key' if is_key else 'text' if it.is_text else 'copy'}();"
    yield from ["    }", "  }"]


def classes(header, stack, read_errors):
    """By its file, the methods that are made of each class."""
    calls = list(wrapped(header, stack, read_errors))
    for name in CLASSES.values():
        found = [it for it in calls if class_of(it.name)[0] == name]
        yield f"{PACKAGE}/{name}.java", [line for it in found for line in method(it)]
