"""For a test of C: each call with faults, of which the first must be returned by the order of its errors in the header."""

from fnmatch import fnmatchcase

from sources.text import Refused

from .c import filled
from .header import PLACE

# By the error of a call, as `cvv.ACCOUNT_DIGIT`, and what the header says after it: the arguments with this fault, by patterns of which the
# first one counts. If two faults are of one argument, the value for the first one has both. An error without arguments is what a call of
# samples.py returns; None is one that depends on more than arguments.
FAULTS = {
    "*.CONTEXT": {"context": "(void *)no_bytes"},
    "*.STREAM": {"stream": "(void *)no_bytes"},
    "*_stream_bits.MODE*": {"stream": "&streams[0]"},
    "*.MODE": {"mode": "0"},
    "*_each.COUNTS if `count`*": {"count": "count + 1"},
    "*.COUNTS if the sum of the counts*": {"counts": "no_counts"},
    "*.COUNTS if the sum of the lengths*": {"lengths": "no_counts"},
    "*.COUNTS*`vectors_length`*": {"vectors_length": "8 * count + 1"},
    "*.COUNTS*`salts_length`*": {"salts_length": "8 * count + 1"},
    "*.COUNTS*`others_length`*": {"others_count": "2"},
    "*.COUNTS*": {"count": "count + 1"},
    "unpad.BLOCKS": {"length": "9"},
    "pgcrypto_encrypt_values.BLOCKS*": None,
    "*_open_salted.BLOCKS": {"length": "17"},
    "cms_wrap_key.BLOCKS*": {"key_length": "7"},
    "*.BLOCKS": {"length": "8 * count + 1"},
    "pad.CAPACITY": {"capacity": "77"},
    "*_key.CAPACITY": {"capacity": "7"},
    "*_wrap_key.OVERLAP*": {"wrapped": "(void *)key"},
    "*_unwrap_key.OVERLAP*": {"key": "(void *)blocks"},
    "*.WRAPPED_LENGTH": {"wrapped_length": "9"},
    "*.WRAPPED_KEY*": {},
    "combine_*.WEAK_KEY": {"first": "no_bytes"},
    "*.WEAK_KEY*": {"key": "no_bytes"},
    "pin_translate_*.KEY_LENGTH": {"incoming_key_length": "7"},
    "key_block_unwrap.KEY_LENGTH": None,
    "pbkdf2.KEY_LENGTH*": None,
    "*.KEY_LENGTH*": {"key_length": "7"},
    "*.PADDING_METHOD": {"method": "0"},
    "dukpt_next_serial.NO_SERIAL": {"serial": "last_serial"},
    "*.NO_SERIAL*": {"terminal": "(void *)no_bytes"},
    "pin_decode_*.FORMAT": {"block": "no_format"},
    "pin_decode_*.PIN_*": None,
    "pin_decode_*.FILL": None,
    "*.PIN_LENGTH of the offset": {"offset_length": "3"},
    "*.PIN_DIGIT of the offset": {"offset": '"x23456789012"'},
    "natural_pin.PIN_LENGTH": {"pin_length": "13"},
    "*.PIN_LENGTH": {"pin_length": "3"},
    "*.PIN_DIGIT*": {"pin": '"x23456789012"'},
    "*.ACCOUNT_LENGTH": {"account_length": "7"},
    "*.ACCOUNT_DIGIT": {"account": '"x012345678909"'},
    "pin_encode_1.FILL*": {"transaction": "no_digits"},
    "*.FILL*": {"fill": "no_digits"},
    "*.FORMATS*": {"incoming_format": "2"},
    "*.PIN_BLOCK*": {"block": "no_bytes"},
    "*.KEY_INDEX": {"index": "0"},
    "*.EXPIRY_LENGTH": {"expiry_length": "3"},
    "*.EXPIRY_DIGIT": {"expiry": '"x701"'},
    "*.SERVICE_LENGTH": {"service_length": "2"},
    "*.SERVICE_DIGIT": {"service": '"x01"'},
    "*.SEQUENCE_LENGTH": {"sequence_length": "1"},
    "*.SEQUENCE_DIGIT": {"sequence": '"x0"'},
    "decimal_table_*.TABLE_LENGTH": {"length": "15"},
    "decimal_table_*.TABLE_DIGIT": {"digits": '"x101010101010101"'},
    "decimal_table_*.TABLE_VARIETY*": {"digits": '"0101010101010101"'},
    "*.TABLE_DIGIT*": {"table": "(const void *)no_bytes"},
    "*.DATA_LENGTH": {"length": "9"},
    "*.PROTECTION_KEY_LENGTH": {"protection_length": "8"},
    "key_block_wrap.VERSION": {"header": "no_version"},
    "key_block_wrap.HEADER": {"header": "no_mode"},
    "key_block_wrap.PADDING_LENGTH": {"padding_length": "7"},
    "key_block_wrap.OPTIONAL_BLOCK if `optional` can't be read*": {"optional_length": "1"},
    "key_block_wrap.OPTIONAL_BLOCK*": None,
    "key_block_wrap.KEY_BLOCK_LENGTH*`capacity`*": {"capacity": "80"},
    "key_block_wrap.KEY_BLOCK_LENGTH*": None,
    "*.KEY_BLOCK_LENGTH": {"block_length": "key_block_length - 1"},
    "*.VERSION": {"block": "block_with(VERSION)"},
    "*.HEADER": {"block": "block_with(HEADER)"},
    "*.OPTIONAL_BLOCK": {"block": "block_with(OPTIONAL_BLOCK)"},
    "*.KEY_DATA_LENGTH": {"block": "block_with(KEY_DATA_LENGTH)"},
    "*.KEY_BLOCK_DIGIT": {"block": "block_with(KEY_BLOCK_DIGIT)"},
    "*.KEY_BLOCK_MAC": {"block": "block_with(KEY_BLOCK_MAC)"},
    "*.KEY_NUMBER": {"number": "10"},
    "*.VALUES": {},
    "pbe_key.ALGORITHM": {"algorithm": '"PBEWithMD5AndTripleDEX"'},
    "jasypt_*.ALGORITHM": {"algorithm": '"PBEWithMD5AndDEX"'},
    "*.ALGORITHM": {"algorithm": '"xdes"'},
    "*.HASH": {"hash": "0"},
    "pbkdf2.ITERATIONS": {"iterations": "0"},
    "pbe_key.ITERATIONS": {"iterations": "0"},
    "jasypt_*.ITERATIONS": {"iterations": "0"},
    "*.ITERATIONS": {"iterations": "(size_t)1 << 32", "hash": "CUKVASHE_SHA256"},
    "*.NOT_SALTED": {"bytes": "blocks"},
    "bytes_to_key.SALT_LENGTH": {"salt_length": "7"},
    "pbe_key.SALT_LENGTH*": {"salt_length": "7"},
    "*.SALT_LENGTH": {"length": "15"},
    "*_open_salted.PADDING": None,
    "*_open_salted.CAPACITY": None,
    "*.TAG": {},
    "*.WRONG_PIN*": {},
    "unpad.PADDING*": {},
    "*.NO_OPTIONAL_BLOCK*": {},
}


def fault_of(call, error):
    """The arguments with a fault, or None."""
    name = f"{call.name}.{error.status} {error.said}".strip()
    for pattern, fault in FAULTS.items():
        if fnmatchcase(name, pattern):
            return fault
    raise Refused(f"bindings/description/orders.py: it has no fault for '{name}'")


class Orders:
    """The calls that return a status, each as a function that makes it with faults."""

    def __init__(self, header, errors, samples):
        self.header, self.samples = header, samples
        self.calls = {header.calls[name]: [(it, fault_of(header.calls[name], it)) for it in found] for name, found in errors.by_name.items()}
        self.calls = {call: [it for it in found if it[1] is not None] for call, found in self.calls.items()}
        for call, found in self.calls.items():
            for error, fault in found:
                if lacking := set(fault) - set(errors.arguments(call)):
                    raise Refused(f"{PLACE}: cukvashe_{call.name} has no argument '{lacking.pop()}' for its error {error.status}")

    def _argument(self, faults, name, good):
        """What an argument is with the first of its faults that the call has, or without one."""
        chosen = [f"has[{at}] ? {fault[name]}" for at, (_, fault) in enumerate(faults) if name in fault]
        return " : ".join([*chosen, good])

    def _given(self, call, faults, one, outputs):
        """The C of an argument. A struct whose fields may have faults is made of them."""
        good = self.samples.argument(call, one, outputs)
        struct = self.header.structs.get(one.type.struct)
        fields = [it.name for it in struct.fields] if struct else []
        own = {it.name for it in call.parameters}
        if not any(name in fields and name not in own for _, fault in faults for name in fault):
            return self._argument(faults, one.name, good)
        of = good.removeprefix("&")
        made = ", ".join(f".{name} = {self._argument(faults, name, f'{of}.{name}')}" for name in fields)
        return f"&({one.type.base}){{{made}}}"

    def functions(self):
        yield "/* Each call that returns a status, with the faults that it is told to have. Made by bindings/describe. */"
        rows = []
        for call, faults in self.calls.items():
            outputs = iter(range(9))
            given = ", ".join(self._given(call, faults, one, outputs) for one in call.parameters)
            yield f"static int faulty_{call.name}(const bool *has) {{"
            if not any(fault for _, fault in faults):
                yield "  (void)has;"
            yield filled(f"  return cukvashe_{call.name}({given})", ";")
            yield "}"
            statuses = ", ".join(f"CUKVASHE_ERR_{it.status}" for it, _ in faults)
            rows.append(filled(f'    {{"{call.name}", faulty_{call.name}, {{{statuses}}}}}', ","))
        yield ""
        yield "/* The statuses of the faults of each call, in the order of the header. */"
        yield from ["static const struct order orders[] = {", *rows, "};"]
