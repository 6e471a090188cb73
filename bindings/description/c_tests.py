"""What a test of the library's C takes: functions in the place of the exports, and what calls must hand on to them."""

from .c import arguments_of, declared, filled, name_of

# What a function in the place of an export does with what was noted.
NOTED = {"int": "return {}", "void": "{}", "bool": "return {} == STATUS && answer"}


def stand_in(name, result, arguments, said):
    """A function that notes what it is given."""
    given = ", ".join(f"(uintptr_t){name_of(it)}" for it in arguments)
    yield declared(result, name, arguments, " {")
    yield filled("  " + NOTED[result].format(f'noted("{said}", ARGUMENTS({given}))'), ";")
    yield "}"


def noted(library):
    yield "/* In the place of each export that C goes on to a function that notes what it is given. Made by bindings/describe. */"
    for it in library.internal():
        yield from stand_in(f"cukvashe_{it.name}", it.result, it.arguments, it.name.replace("_", " ", 1))
    yield "#if HAS_WIDE"
    for it in library.internal():
        if it.is_wide:
            name = it.name.replace("internal_", "wide_")
            yield from stand_in(f"cukvashe_{name}", it.result, it.arguments, name.replace("_", " ", 1))
    yield "#endif"
    for call in library.renamed:
        export = library.exports[call.name]
        arguments = arguments_of(call) if call in library.alike else export.arguments
        yield from stand_in(f"cukvashe_unwiped_{call.name}", export.result, arguments, f"unwiped {call.name}")


def handed(library):
    yield "/* Each call of calls.c whose export has its arguments goes on to it with these in their order, and wipes. Made by bindings/describe. */"
    yield "static void hands_all_on(void) {"
    for it in library.handed:
        given = [f"(void *)(base + {at})" if one.type.is_pointer else str(at + 1) for at, one in enumerate(it.parameters)]
        given = ["true" if one.type.base == "bool" else word for one, word in zip(it.parameters, given)]
        made = f"cukvashe_{it.name}({', '.join(given)})"
        yield filled(f"  CHECK({made} == STATUS)" if it.result.base == "int" else f"  {made}", ";")
        yield filled(f'  WAS_WIPED("unwiped", "{it.name}", {", ".join(f"(uintptr_t){word}" for word in given)})', ";")
    yield "}"


def numbers(header):
    yield "/* What each call of the header gives that gives a number. Made by bindings/describe. */"
    yield "static void gives_numbers(void) {"
    yield from (f"  CHECK(cukvashe_{name}_size() == sizeof(cukvashe_{name}));" for name in header.structs)
    constants = [it for it in header.constants if it not in header.statuses]
    yield from (f"  CHECK(cukvashe_{it.name.lower()}() == {it.number});" for it in constants)
    yield "}"
