"""Writes the shim between C on a board and the module: shim.py HEADER MODULE.ll SHIM.c.

For every call of the header there is one function, which hands its arguments on to the proved function, lengths as 64 bits. The header and the module must
have the same calls, and of the same kinds: else one line says what differs, and nothing is written."""
import re
import sys

KINDS = {"uint8_t": "i8", "uint16_t": "i16", "uint32_t": "i32", "size_t": "i64"}
DECLARED = re.compile(r"^(uint\d+_t) cedarskein_(\w+)\(([^;]*)\);", re.MULTILINE)
DEFINED = re.compile(r"^define (?!internal)[\w ]*?(\w+) @cedarskein_(\w+)\((.*)\) #0 \{", re.MULTILINE)


def fail(text):
    raise SystemExit(f"no archive for boards is built: {text}")


def words(text):
    return " ".join(text.split())


def calls_of_header(text):
    """Each call of the header by its name: the type of its result, and its parameters as they are written."""
    plain = re.sub(r"/\*.*?\*/", "", text, flags=re.DOTALL)
    calls = {}
    for result, name, listed in DECLARED.findall(plain):
        calls[name] = result, [] if words(listed) == "void" else [words(one) for one in listed.split(",")]
    return calls


def type_and_name(parameter):
    found = re.fullmatch(r"((?:const )?\w+ \*|\w+ )(\w+)", parameter)
    if not found:
        fail(f"the header has a parameter that the shim cannot hand on: {parameter}")
    return found[1].strip(), found[2]


def kind(of_c):
    """What the module calls a type of C."""
    if of_c.endswith("*"):
        return "ptr"
    if of_c not in KINDS:
        fail(f"the header has a type that the shim cannot hand on: {of_c}")
    return KINDS[of_c]


def calls_of_module(text):
    return {name: (result, [one.split()[0] for one in listed.split(", ") if one]) for result, name, listed in DEFINED.findall(text)}


def compare(header, module):
    for name in sorted(header.keys() | module.keys()):
        if name not in header or name not in module:
            fail(f"cedarskein_{name} is in the {'header' if name in header else 'module'} alone")
        result, listed = header[name]
        if module[name] != (kind(result), [kind(type_and_name(one)[0]) for one in listed]):
            fail(f"cedarskein_{name} is another in the header than in the module")


def shim_of(name, result, listed):
    wide = [one.replace("size_t ", "uint64_t ") for one in listed]
    given = [type_and_name(one)[1] for one in listed]
    return (f"extern {result} proved_{name}({', '.join(wide) or 'void'});\n"
            f"{result} cedarskein_{name}({', '.join(listed) or 'void'})\n{{\n    return proved_{name}({', '.join(given)});\n}}\n")


def main(header, module, shim):
    with open(header, encoding="utf-8") as file:
        calls = calls_of_header(file.read())
    with open(module, encoding="utf-8") as file:
        compare(calls, calls_of_module(file.read()))
    parts = ['/* Made from cedarskein.h by board/shim.py. */\n#include "cedarskein.h"\n\n#include "lacking.h"\n']
    with open(shim, "w", encoding="utf-8") as file:
        file.write("\n".join(parts + [shim_of(name, *call) for name, call in calls.items()]))


main(*sys.argv[1:])
