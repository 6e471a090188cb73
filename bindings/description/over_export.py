"""A call over a proved export that has other arguments, or another name: which export it is, and what it is given. What the call refuses
before it goes on stands in the order of its errors."""

import re
from functools import cached_property

from sources.text import Refused

from .exports import passed, shape, written
from .header import PLACE

# The words of a MAC's context after those of its cipher.
MESSAGE_WORDS = 4
ALGORITHMS = {"cbc_mac": "ALGORITHM_CBC_MAC", "retail_mac": "ALGORITHM_RETAIL_MAC", "cmac": "ALGORITHM_CMAC"}
BLOCKS = "length / CUKVASHE_BLOCK_SIZE"
BYTES_OF_BITS = "bits / 8 + (bits % 8 != 0)"
# The calls of lists whose speed goes by the number of blocks, and not by the other count: CBC decryption takes all blocks of all records
# at once, and encryption a block of each record.
COLUMNS = ("decrypt_values", "decrypt_values_by_file", "encrypt_values")
BY_BLOCKS = ("decrypt_cbc_records", "decrypt_values", "decrypt_values_by_file")

# What exports require: of the words of a context and of constants, which are right; and of lengths, which are sizes, one for two slices, or
# what the call refuses by the condition of its error.
KEY_OF_MAC = "IsMacKeyLength algorithm (length key.now)"
OF_WORDS = re.compile(r"(HasSomeCipherType|HasMacCipherType algorithm|IsSoundIfMarked|IsSoundMacIfMarked algorithm) context\.\w+( message\.\w+)?")
UPHELD = {
    "IsAlgorithm algorithm", "IsKeyLength key_size", "IsMacKeyLength algorithm key_size", KEY_OF_MAC,
    "IsKeyLength (length key.old)", "(length first.now ≡ length key.old)", "(length second.now ≡ length key.old)",
    "length others.now % length key.old ≡ 0", "bits ≤ 8 * length bytes.old",
}  # fmt: skip


class OverExport:
    """A call of the header and its export."""

    def __init__(self, header, errors, call, exports):
        self.header, self.call, self.errors = header, call, errors.by_name.get(call.name, [])
        self.kind = next((it for it in header.kinds if call.name.startswith(f"{it}_")), None)
        self.algorithm = next((word for name, word in ALGORITHMS.items() if (self.kind or "").startswith(name)), None)
        self.has_context = bool(call.parameters) and call.parameters[0].type.struct in header.kinds
        self.export = self._export(exports)
        self.named = [name for name, kind in self.export.pairs if not kind.endswith("MessageState")]
        self.left, self.absent = list(self.values), {}
        for it in self.export.required:
            if it not in UPHELD and not OF_WORDS.fullmatch(it):
                raise Refused(f"cukvashe_{self.export.name} requires '{it}': how cukvashe_{call.name} upholds that is not known")

    def _export(self, exports):
        """The one of the call's name, else the hidden one whose name the call's begins with, without that of a cipher or a MAC."""
        if self.call.name in exports:
            return exports[self.call.name]
        name = self.call.name.removeprefix(f"{self.kind}_")
        prefix = "internal_mac_" if self.algorithm and self.has_context else "internal_"
        fitting = [it for it in exports if f"{prefix}{name}_".startswith(f"{it}_")]
        if not fitting:
            raise Refused(f"cukvashe_{self.call.name} has no export in crates/des_c, and no C in cukvashe_des.c")
        return exports[max(fitting, key=len)]

    @cached_property
    def values(self):
        """What the export can be given, by its name: how C writes it, and its type. Fields of structs that the export does not take stand
        beside the arguments."""
        found = {}
        for it in self.call.parameters[1 if self.has_context else 0 :]:
            struct = self.header.structs.get(it.type.struct)
            if struct is None or it.name in self.named:
                found[it.name] = (it.name, it.type)
            else:
                for field in struct.fields:
                    address = "" if field.type.struct is None else "&"
                    found[field.name] = (f"{address}{it.name}->{field.name}", field.type)
        return found

    # ---- what the export is given

    @property
    def wide_by(self):
        """By what the width is chosen: the blocks that do not wait for each other."""
        if self.call.name.endswith("_encrypt_mode"):
            return f"mode == CUKVASHE_CTR ? {BLOCKS} : 0"
        if self.call.name.endswith("_decrypt_mode"):
            return f"mode == CUKVASHE_OFB ? 0 : {BLOCKS}"
        return BLOCKS if self.call.name.endswith(BY_BLOCKS) else self.count or BLOCKS

    @property
    def count(self):
        """The argument that has the number of elements of lists, or None."""
        return next((it for it in self.values if it == "count" or it.endswith("_count")), None)

    def made(self):
        """The call of the export, of its wide twin too if it works through a list."""
        given = ", ".join(word for name, kind in self.export.pairs for word in self._words(name, kind))
        checked = {word for _, words, _ in self._conditions() for word in words}
        left = [it for it in self.left if it not in checked and "->" not in self.values[it][0]]
        if left:
            raise Refused(f"cukvashe_{self.call.name} does not hand '{left[0]}' on to cukvashe_{self.export.name}, nor compare it")
        is_of_lists = self.count and not self.call.name.endswith(COLUMNS)
        lists = [it for it in self.values if is_of_lists and it.endswith("_length") and it not in checked]
        if lists:
            raise Refused(f"{PLACE}: no error of cukvashe_{self.call.name} says which `{lists[0]}` it refuses")
        if self.export.is_wide:
            return f"CHOOSE({self.wide_by}, {self.export.name.removeprefix('internal_')}, {given})"
        return f"cukvashe_{'unwiped_' if self.call.name == self.export.name else ''}{self.export.name}({given})"

    def _words(self, name, kind):
        """What an argument of the export is given."""
        words = self.header.structs[self.kind].words - (MESSAGE_WORDS if self.algorithm else 0) if self.kind else 0
        fixed = {
            "algorithm": self.algorithm,
            "key_size": f"CUKVASHE_{(self.kind or '').upper()}_KEY_SIZE",
            "no_tables": "true" if self.call.name.endswith("_no_tables") else "false",
        }
        if name == "context" and self.has_context:
            return ["context->words", str(words)]
        if kind.endswith("MessageState"):
            return [f"context->words + {words}"]
        if name in fixed and not kind.startswith("&"):
            return [fixed[name]]
        if name == "padding" and kind == "u32":
            return [f"(uint32_t){self._taken('method')}" if "method" in self.values else "CUKVASHE_MAC_PADDING_2"]
        if not kind.startswith("&"):
            return [self._number(name, kind)]
        pointer = self._pointer(name)
        return [self._shown(pointer, kind), *self._elements(pointer, kind)]

    def _number(self, name, kind):
        found = name if name in self.values else next((it for it in self.values if it.endswith(f"_{name}")), "length")
        if self.values[self._used(found)][1].base != {"usize": "size_t", "bool": "bool"}.get(kind, "int"):
            raise Refused(f"cukvashe_{self.call.name} hands '{found}' on to cukvashe_{self.export.name}, which takes another type")
        cast = "(uint32_t)" if kind == "u32" else ""
        return f"{cast}{self._taken(found)}"

    def _pointer(self, name):
        """The value of this name, or which begins with it, else the next pointer whose name is none of the export's."""
        if name in self.values:
            return self._used(name)
        pointers = [it for it in self.left if self.values[it][1].is_pointer and it not in self.named]
        begun = [it for it in pointers if it.startswith(f"{name}_")]
        return self._used((begun or pointers or [name])[0])

    def _shown(self, pointer, kind):
        """A pointer as C hands it on. Texts are handed on as bytes; for a null pointer of a struct, zeros if the export takes a fixed size."""
        shown, its = self.values[pointer]
        is_const, base, _, size = shape(passed(pointer, kind)[0])
        own_const, own_base, _, own_size = shape(written(its, pointer))
        if base != own_base or own_const > is_const or size not in (None, own_size) and "->" not in shown:
            raise Refused(f"cukvashe_{self.call.name} hands '{pointer}' on to cukvashe_{self.export.name}, which takes another type")
        const = "const " if its.is_const else ""
        cast = f"({const}uint8_t *)" if its.base == "char" else ""
        if "->" in shown and (sized := re.fullmatch(r"&\[u8; (\d+)\]", kind)):
            self.absent[pointer] = int(sized[1])
            return f"{shown} != NULL ? {shown} : no_{pointer}"
        return cast + shown

    def _elements(self, pointer, kind):
        """The number of elements of a slice, beside its pointer."""
        if kind[-1:] != "]" or re.fullmatch(r"&(mut )?\[\w+; \d+\]", kind):
            return []
        own, its = f"{pointer}_length", self.values[pointer][1]
        size = re.fullmatch(r"&(?:mut )?\[\[u8; (\d+)\]\]", kind)
        if size and own not in self.values and "length" in self.values and "size" in self.named:
            return [BLOCKS]
        if size and "capacity" in self.values:
            return [f"{self._taken('capacity')} / {size[1]}"]
        if size or "usize" in kind or "bool" in kind or "i32" in kind or "&[u8]" in kind[1:]:
            return [self._taken(self.count or "count")]
        if its.sizes:
            return [str(its.sizes[0])]
        if own in self.values and not self.values[own][1].is_pointer:
            return [self._taken(own)]
        if pointer == "keys":
            return [f"{self._taken(self.count or 'count')} * {self.size_of('keys')}"]
        if kind.startswith("&mut") and "capacity" in self.values:
            return [self._taken("capacity")]
        if "bits" in self.values:
            return [BYTES_OF_BITS]
        return [self._taken("length" if "length" in self.values else "key_length")]

    def _used(self, name):
        if name not in self.values:
            raise Refused(f"cukvashe_{self.call.name} has nothing for '{name}' of cukvashe_{self.export.name}")
        self.left = [it for it in self.left if it != name]
        return name

    def _taken(self, name):
        return self.values[self._used(name)][0]

    # ---- what the call refuses itself

    def before(self):
        """The lines before the export is called. From a buffer to itself is the call in place: exports take two that do not overlap."""
        if "input" in self.values:
            given = ", ".join(it.name for it in self.call.parameters if it.name != "input")
            yield f"if (input == output) return cukvashe_{self.call.name.removesuffix('_to')}({given});"
        for status, _, conditions in self._conditions():
            yield from (f"if ({it}) return CUKVASHE_ERR_{status};" for it in conditions)

    def size_of(self, of):
        """The bytes of an element of a list."""
        kind = dict(self.export.pairs).get(of, "")
        if sized := re.search(r"\[\[u8; (\d+)\]\]", kind):
            return sized[1]
        if "key_size" in self.named:
            return f"CUKVASHE_{self.kind.upper()}_KEY_SIZE"
        sizes = {it.type.sizes for it in self.call.parameters if it.type.sizes}
        if len(sizes) != 1:
            raise Refused(f"cukvashe_{self.call.name}: which size the elements of '{of}' have is not known")
        return str(sizes.pop()[0])

    def _conditions(self):
        """What the call refuses, in the order of its errors: the status, the arguments that are compared, and when it is returned. These come
        first, before what the export refuses."""
        is_of_export = False
        for error in self.errors:
            found = self._condition(error)
            if found and is_of_export:
                raise Refused(f"{PLACE}: cukvashe_{self.call.name} can't return {error.status} after what its export returns")
            if found:
                yield (error.status, *found)
            is_of_export |= found is None

    def _condition(self, error):
        """The arguments that an error compares with others, and when it is returned, or None of one that the export finds."""
        if agree := re.fullmatch(r"if `(\w+)`(?: or `(\w+)`)? is not that of `(\w+)` .*", error.said):
            lengths = [it for it in agree.groups()[:2] if it in self.values]
            compared = [f"!are_elements({agree[3]}, {self.size_of(it.removesuffix('_length'))}, {it})" for it in lengths]
            return [*lengths, agree[3]], compared
        if apart := re.fullmatch(r"if `(\w+)` overlaps `(\w+)`", error.said):
            return [], [f"overlap({apart[1]}, capacity, {apart[2]}, {apart[2]}_length)"]
        if error.said == "if `count` is not `length` / 8":
            return ["count", "length"], [f"count != {BLOCKS}"]
        if equal := re.fullmatch(r"if `(\w+)` is not (\d+)", error.said):
            return [equal[1]], [f"{self.values[equal[1]][0]} != {equal[2]}"]
        if error.status == "BLOCKS" and "length" in self.values and "size" not in self.named and "&mut [[u8; 8]]" in dict(self.export.pairs).values():
            return [], ["length % CUKVASHE_BLOCK_SIZE != 0"]
        if error.status == "KEY_LENGTH" and KEY_OF_MAC in self.export.required:
            return ["key_length"], [f"key_length != CUKVASHE_{self.kind.upper()}_KEY_SIZE"]
        return None
