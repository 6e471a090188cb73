"""Each call of the header with arguments that it takes, for tests of C: what they are is told by their names, and by few exceptions."""

import re
from fnmatch import fnmatchcase

from sources.text import Refused

from .c import filled

# The arguments that a call reads, if any bytes won't do, and its numbers; what it writes goes to the test's buffers. `count` is the
# length of a list.
BY_NAME = {
    "account": '"4012345678909"', "account_length": "13", "algorithm": '"3des"', "algorithm_length": "4", "base": "key", "bits": "8 * count", "block": "sent", "blocks": "1",
    "buffer": "blocks", "bytes": "salted",
    "capacity": "sizeof blocks", "card": "key", "count": "count", "counts": "ones", "digits": '"0123456789012345"',
    "expiry": '"8701"', "expiry_length": "4", "fill": "fill", "first": "key", "hash": "CUKVASHE_SHA256", "index": "1",
    "initial": "key", "is_response": "true", "issuer": "key", "iterations": "2", "iv_length": "8", "key": "key", "key_length": "24",
    "keys": "keys", "length": "8 * count", "lengths": "eights", "messages": "messages", "method": "1", "mode": "CUKVASHE_CTR", "number": "127", "offset": "pin_digits", "offset_length": "12", "others": "others",
    "others_count": "1", "parts": "&parts", "password": "others", "password_length": "sizeof others", "pin": "pin_digits",
    "pin_length": "12", "place": "0", "protection": "key", "protection_length": "24", "records_count": "count", "salt_length": "8",
    "second": "others", "sequence": '"00"', "sequence_length": "2", "serial": "serial", "service": '"101"', "service_length": "3",
    "session": "key", "size": "sizeof blocks", "status": "3", "table": "&table", "tag_length": "8", "terminal": "&terminal", "texts_count": "count",
    "transaction": "key", "translation": "&translations[0]", "value": "pin_digits", "value_length": "4",
    "values_count": "count", "wrapped_length": "40",
}  # fmt: skip
# Of lists that have a length beside their count, the size of an element.
ELEMENTS = {"keys_length": 16, "tags_length": 8, "expected_length": 8, "values_length": 3, "serials_length": 10, "vectors_length": 8, "salts_length": 8}
# By patterns of a call and an argument, of which the first one counts.
EXCEPTIONS = {
    "decimal_table_init*.length": "16", "decimal_table_init_any.digits": '"0000000000000000"', "des_open_salted.hash": "CUKVASHE_SHA1",
    "dukpt_terminal_*.terminal": "&terminal", "emv_application_cryptogram.length": "sizeof blocks",
    "emv_card_key_b.account": '"6304000000000000001"', "emv_card_key_b.account_length": "19", "emv_response_2.length": "8",
    "emv_response_2.status": "blocks", "key_block_*.block": "key_block", "key_block_*.block_length": "key_block_length",
    "key_block_wrap.capacity": "sizeof key_block", "key_block_wrap.length": "&key_block_length", "pad.length": "77",
    "*pad.method": "CUKVASHE_PKCS7", "pin_decode_1.block": "sent + 8", "pin_encode_1.transaction": "fill",
    "mysql_*_by_file.keys": '(const uint8_t *)"9 key\\n"', "mysql_*_by_file.keys_length": "6",
    "mysql_decrypt_*.values": "column", "mysql_decrypt_*.length": "9 * count", "mysql_decrypt_*.lengths": "nines",
    "mysql_encrypt_*.values_length": "17 * count", "pgcrypto_encrypt_*.values_length": "16 * count",
    "jasypt_encrypt_*.values_length": "32 * count",
    "jasypt_*.algorithm": '"PBEWithMD5AndDES"', "jasypt_*.algorithm_length": "16",
    "pbe_key.algorithm": '"PBEWithMD5AndTripleDES"', "pbe_key.algorithm_length": "22", "pbe_key.key_length": "32",
    "pin_translate_to_1.block": "sent + 8", "pin_translate_to_1.translation": "&translations[1]",
    "tdes_ede2_open_salted.hash": "CUKVASHE_MD5", "tdes_*_open_salted.iterations": "0", "unpad.length": "80",
    "*_open_salted.length": "sizeof salted", "*_open_salted.capacity": "sizeof salted",
    "stream_begin*.stream": "(void *)outputs[0]", "*_stream_bits.stream": "&streams[1]",
    "*_decrypt_stream.stream": "&streams[2]", "*_decrypt_mode.mode": "CUKVASHE_CFB64", "*.stream": "&streams[0]",
}  # fmt: skip


class Samples:
    """The calls in their order, each as a function that makes it."""

    def __init__(self, header, stack):
        self.header, self.stack = header, stack

    def kind_of(self, call):
        """The cipher or MAC whose name the call has, or None."""
        return next((it for it in self.header.kinds if call.name.startswith(f"{it}_")), None)

    def argument(self, call, one, outputs):
        kind, size = self.kind_of(call), f"CUKVASHE_{(self.kind_of(call) or '').upper()}_KEY_SIZE"
        for pattern, given in EXCEPTIONS.items():
            if fnmatchcase(f"{call.name}.{one.name}", pattern):
                return given
        if one.type.struct and self.header.structs[one.type.struct].words:
            return f"(void *)contexts[{self.header.kinds.index(one.type.struct)}]"
        if one.type.is_pointer and not one.type.is_const:
            return f"(void *)outputs[{next(outputs)}]"
        if kind and one.name == "key_length":
            return size
        if one.name in ELEMENTS:
            return f"{size if kind and one.name == 'keys_length' else ELEMENTS[one.name]} * count"
        if one.name == "others_length":
            return call.name.rpartition("_")[2]
        if one.name not in BY_NAME and one.type.base == "uint8_t" and one.type.is_pointer:
            return "blocks"
        if one.name not in BY_NAME:
            raise Refused(f"bindings/description/samples.py: it has no value for the argument '{one.name}' of {call.name}")
        return BY_NAME[one.name]

    def functions(self):
        yield "/* Each call of the header with arguments that it takes, by its name. Made by bindings/describe. */"
        rows = []
        for call in self.header.calls.values():
            outputs = iter(range(9))
            given = ", ".join(self.argument(call, one, outputs) for one in call.parameters)
            made = f"cukvashe_{call.name}({given})"
            if call.result.base != "void":
                made = f"returned = {'*' * call.result.is_pointer}{made}"
            yield filled(f"static void call_{call.name}(void) {{ {made}", "; }")
            takes_context = any(one.type.struct and self.header.structs[one.type.struct].words for one in call.parameters)
            words = [self.stack.limit(call), *map(int, (self.stack.wipes(call), "count" in re.findall(r"\w+", given), takes_context))]
            rows.append(f'    {{"{call.name}", call_{call.name}, {", ".join(map(str, words))}}},')
        yield ""
        yield "/* The name of each call, the most that it uses of the stack, whether it wipes that, and whether it takes a list, and a context. */"
        yield from ["static const struct call calls[] = {", *rows, "};"]

    def ignored(self):
        """Each call that returns a status or an answer, with what it returns thrown away."""
        yield "/* Each call that returns a status or an answer, which is thrown away: the compiler warns. Made by bindings/describe. */"
        yield from ["#include <cukvashe_des.h>", "void ignores(void);", "void ignores(void) {"]
        for call in self.header.calls.values():
            if call.result.base in ("int", "bool") and call.parameters:
                yield f"  cukvashe_{call.name}({', '.join('0' for _ in call.parameters)});"
        yield "}"
