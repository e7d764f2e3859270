#!/usr/bin/env python3
"""The makers' registers by name, made of the list tools/registers.txt and the sheets:

  docs/REGISTERS.md                 a table for people
  sheets/registers.csv              the same for programs, a row for each register of each sheet
  include/cedarskein_registers.h    the addresses as constants of C
  demo/register_rows.c              names, units and steps for the screens of the demo

  python3 tools/registers.py            writes them
  python3 tools/registers.py --check    says which of them is not what would be written, exit status 1; nothing where all are

Addresses, kinds, ranges and access of the settings come from the sheets; the list has their names and units. Where the two do not fit, a
line says what is wrong, nothing is written, and the exit status is 1."""
import csv
import io
import os
import re
import sys
from dataclasses import dataclass, field
from decimal import Decimal

ROOT = os.path.dirname(os.path.dirname(os.path.abspath(__file__)))
LIST = "tools/registers.txt"
# the kinds of the sheet's items by their number, and all kinds with their words and their sign
ITEM_KINDS = ("word", "signed word", "pair")
KINDS = {"word": (1, False), "signed word": (1, True), "pair": (2, False), "signed pair": (2, True), "triple": (3, False), "clear": (1, False)}
READ_ONLY, WRITE_ONLY, CLEAR_ALLOWED = 1, 2, 2
ACCESS = {WRITE_ONLY: "write", 3: "read and write"}


class Wrong(Exception):
    """What is wrong with the list, or between it and a sheet."""


@dataclass
class Row:
    """A register as the list has it."""
    line: int
    address: int
    name: str
    kind: str
    step: Decimal
    unit: str
    values: list


@dataclass
class Meter:
    constant: str
    title: str
    sheets: list
    rows: list = field(default_factory=list)


@dataclass
class Register:
    """A register of one sheet: the list's row with what the sheet says of it."""
    row: Row
    kind: str
    access: str
    low: int
    high: int


def fields_of(line, count, number):
    parts = [part.strip() for part in line.split("|")]
    if len(parts) != count:
        raise Wrong(f"{LIST}:{number}: {len(parts)} fields, not {count}")
    return parts


def row_of(line, number):
    address, name, kind, step, unit, values = fields_of(line, 6, number)
    if not re.fullmatch("[0-9A-F]{4}", address) or not re.fullmatch("[A-Z][A-Za-z ]*", name):
        raise Wrong(f"{LIST}:{number}: an address has four hexadecimal digits, a name letters and blanks")
    if kind and kind not in KINDS:
        raise Wrong(f"{LIST}:{number}: no kind {kind}")
    if not re.fullmatch(r"[0-9]+|0\.0*1", step):
        raise Wrong(f"{LIST}:{number}: a step is a whole number, or 0.1, 0.01 and so on")
    return Row(number, int(address, 16), name, kind, Decimal(step), unit, [value.strip() for value in values.split(";")] if values else [])


def meters_of(text):
    meters = []
    for number, line in enumerate(text.split("\n"), 1):
        if not line.strip() or line.startswith("#"):
            continue
        if line.startswith("meter "):
            constant, title, sheets = fields_of(line[len("meter "):], 3, number)
            meters.append(Meter(constant, title, sheets.split()))
        elif meters:
            meters[-1].rows.append(row_of(line, number))
        else:
            raise Wrong(f"{LIST}:{number}: a register in front of the first meter")
    return meters


def words_of(sheet):
    with open(f"sheets/{sheet}.sheet", "rb") as file:
        data = file.read()
    words = [data[k] << 8 | data[k + 1] for k in range(0, len(data) - 1, 2)]
    if len(words) < 12 or len(data) != 2 * words[7]:
        raise Wrong(f"sheets/{sheet}.sheet is no sheet")
    return words


def areas_of(words):
    return [words[12 + 4 * k:16 + 4 * k] for k in range(words[1])]


def settings_of(words):
    """Kind, access, low and high of each item, by its first address."""
    found = {place + k: (first + k, ACCESS.get(access)) for first, last, place, access in areas_of(words) for k in range(last + 1 - first)}
    settings = {}
    for k in range(words[3]):
        kind, place, low_upper, low, high_upper, high = words[words[4] + 6 * k:words[4] + 6 * k + 6]
        bounds = [low_upper << 16 | low, high_upper << 16 | high]
        if ITEM_KINDS[kind] == "signed word":
            bounds = [bound - 0x10000 if bound >= 0x8000 else bound for bound in bounds]
        address, access = found[place]
        settings[address] = (ITEM_KINDS[kind], access, *bounds)
    return settings


def setting(row, found, sheet):
    kind, access, low, high = found
    if row.kind:
        raise Wrong(f"{LIST}:{row.line}: the kind of a setting stands in the sheet {sheet}, not here")
    if row.values and (low, high) != (0, len(row.values) - 1):
        raise Wrong(f"{LIST}:{row.line}: {len(row.values)} values, but the sheet {sheet} has {low} to {high}")
    return Register(row, kind, access, low, high)


def reading(row):
    """Any value that the kind can hold: the firmware posts it, and the library does not judge it."""
    if row.kind == "clear":
        return Register(row, row.kind, "clear", 0, 0)
    words, signed = KINDS[row.kind]
    half = 1 << (16 * words - 1)
    return Register(row, row.kind, "read", *((-half, half - 1) if signed else (0, 2 * half - 1)))


def registers_of(meter, sheet):
    """The registers of a sheet in the order of the list. Each address of the sheet is named once, and none twice."""
    words = words_of(sheet)
    settings = settings_of(words)
    left = {address for first, last, _, access in areas_of(words) if access == READ_ONLY for address in range(first, last + 1)}
    left |= {words[10]} if words[6] & CLEAR_ALLOWED else set()
    registers = []
    for row in meter.rows:
        if row.address in settings:
            registers.append(setting(row, settings.pop(row.address), sheet))
        elif row.address in left:
            taken = set(range(row.address, row.address + KINDS.get(row.kind, (1,))[0]))
            if not row.kind or not taken <= left:
                raise Wrong(f"{LIST}:{row.line}: the sheet {sheet} has a reading at {row.address:04X}, which needs a kind that fits")
            left -= taken
            registers.append(reading(row))
    unnamed = sorted(left | set(settings))
    if unnamed:
        raise Wrong(f"{LIST}: the sheet {sheet} has {unnamed[0]:04X}, which the list has no name for")
    return registers


def tables_of(meters):
    """The registers of each sheet, by meter; a row that no sheet has is told."""
    tables = {meter.constant: {sheet: registers_of(meter, sheet) for sheet in meter.sheets} for meter in meters}
    for meter in meters:
        used = {register.row.line for registers in tables[meter.constant].values() for register in registers}
        for row in meter.rows:
            if row.line not in used:
                raise Wrong(f"{LIST}:{row.line}: {meter.title} has no register that begins at {row.address:04X}, or it is named twice")
        names = [row.name for row in meter.rows]
        for row in meter.rows:
            if names.count(row.name) > 1:
                raise Wrong(f"{LIST}:{row.line}: {meter.title} has two registers called {row.name}")
    return tables


def physical(raw, row):
    """A raw value in its unit, or by the list's own word for it."""
    return str(row.values[raw] if row.values else raw * row.step)


def hex_of(raw, kind):
    digits = 4 * KINDS[kind][0]
    return f"{raw % 16 ** digits:0{digits}X}"


def constant_of(meter, row):
    return f"CEDARSKEIN_{meter.constant}_" + row.name.upper().replace(" ", "_")


def last_of(register):
    return register.row.address + KINDS[register.kind][0] - 1


def meaning_of(register):
    """What the raw values stand for: the words of each, or the bounds, in the unit."""
    row = register.row
    if row.values:
        return " ".join([", ".join(f"{raw}: {value}" for raw, value in enumerate(row.values)), row.unit]).strip()
    return " ".join([physical(register.low, row), "to", physical(register.high, row), row.unit]).strip()


def line_of_page(register, remark):
    row = register.row
    kind, clear = register.kind, register.kind == "clear"
    raw = "0" if clear else f"{register.low} to {register.high}"
    hexadecimal = hex_of(0, kind) if clear else f"{hex_of(register.low, kind)} to {hex_of(register.high, kind)}"
    step = "" if row.values or clear else f"{row.step} {row.unit}".strip()
    cells = [f"{row.address:04X}", row.name + remark, kind, raw, hexadecimal, "" if clear else meaning_of(register), step, register.access]
    return "| " + " | ".join(cells) + " |"


def lines_of_page(meter, tables):
    """A line for each register; where the sheets differ, one for each sheet."""
    lines = []
    for row in meter.rows:
        found = {sheet: register for sheet, registers in tables.items() for register in registers if register.row is row}
        alike = len(found) == len(tables) and len({line_of_page(register, "") for register in found.values()}) == 1
        if alike:
            lines.append(line_of_page(next(iter(found.values())), ""))
        else:
            lines += [line_of_page(register, f", `{sheet}`") for sheet, register in found.items()]
    return lines


PAGE = """# The makers' registers

Made by `make registers` from the sheets and the list of names `tools/registers.txt`; `make test` compares it. `sheets/registers.csv` has the same for
programs, and `include/cedarskein_registers.h` has the addresses as constants of C.

An address is that of the first register. A pair is two registers that hold one number, a triple three, upper word first. The physical value is the raw
value times one step; degC is degrees Celsius.

- Settings are read by function 03 and written by 06 and 10. A value out of its range gets error 03.
- Presets, whose access is write, are written by 06 and 10 and never read: a 03 that touches one gets error 02. What was written stands in the bank, where
  the firmware finds it. The upper digit, the middle and the lower digits of the preset volume make up one volume, the forward one that the meter's
  display shows. They are plain numbers, not packed digits: 12345678.9 m3 is 0001, 2345 (hexadecimal 0929) and 6789 (1A85). The preset second volume is the
  forward one that the display does not show (003: which is the actual and which the compensated volume goes by the meter's specification).
- Readings are read by 03. They may be all that their kind can hold: the firmware posts them, and the library does not judge them.
- The clear is function 05 at this address with the value 0. It sets the alarm mark to 0.
- The volume alarm limit of UX15/25 is for the volume of one hour (001, 5.2). What each error bit means stands in the makers' figures alone. 003 prints
  no unit for the sound velocity.
"""


def page(meters, tables):
    text = PAGE
    for meter in meters:
        sheets = ", ".join(f"`{sheet}`" for sheet in meter.sheets)
        text += f"\n## {meter.title}\n\nSheets: {sheets}.\n\n"
        text += "| Address | Name | Kind | Raw | Raw, hex | Physical | One step | Access |\n|---|---|---|---|---|---|---|---|\n"
        text += "\n".join(lines_of_page(meter, tables[meter.constant])) + "\n"
    return text


def rows_of_table(meters, tables):
    yield "sheet address last_address constant name kind access raw_low raw_high low high step unit values".split()
    for meter in meters:
        for sheet, registers in tables[meter.constant].items():
            for register in registers:
                row, low, high = register.row, register.low, register.high
                values = ";".join(f"{number}={value}" for number, value in enumerate(row.values))
                yield [sheet, f"{row.address:04X}", f"{last_of(register):04X}", constant_of(meter, row), row.name, register.kind,
                       register.access, low, high, physical(low, row), physical(high, row), "" if row.values else row.step, row.unit, values]


def table(meters, tables):
    text = io.StringIO()
    csv.writer(text, lineterminator="\n").writerows(rows_of_table(meters, tables))
    return text.getvalue()


def remark_of(register):
    """What a constant's comment says of its register."""
    row = register.row
    if register.kind == "clear":
        return "function 05"
    kind = register.kind + (", written and never read" if register.access == ACCESS[WRITE_ONLY] else "")
    if row.values:
        return f"{kind}; {meaning_of(register)}"
    return kind + (f"; one step is {row.step} {row.unit}".rstrip() if row.unit or row.step != 1 else "")


def header(meters, tables):
    lines = ["/* The addresses of the makers' registers. docs/REGISTERS.md says what each holds. */",
             "/* Made by tools/registers.py from the sheets and tools/registers.txt. */",
             "#ifndef CEDARSKEIN_REGISTERS_H", "#define CEDARSKEIN_REGISTERS_H"]
    for meter in meters:
        lines += ["", f"/* {meter.title} */"]
        known = {register.row.line: register for registers in tables[meter.constant].values() for register in registers}
        lines += [f"#define {constant_of(meter, row)} 0x{row.address:04X} /* {remark_of(known[row.line])} */" for row in meter.rows]
    return "\n".join(lines + ["", "#endif", ""])


def text_of_c(text):
    return f'"{text}"' if text else "NULL"


def line_of_rows(register):
    row = register.row
    words, signed = KINDS[register.kind]
    decimals = max(0, -row.step.as_tuple().exponent)
    whole = 1 if decimals else int(row.step)
    values = text_of_c(";".join(row.values))
    return f'    {{ 0x{row.address:04X}, {words}, {int(signed)}, {whole}, {decimals}, "{row.name}", "{row.unit}", {values} }},'


def rows(meters, tables):
    lines = ["/* The makers' registers for the screens of the demo. */",
             "/* Made by tools/registers.py from the sheets and tools/registers.txt. */", '#include "registers.h"', "", "#include <stddef.h>"]
    for meter in meters:
        known = {register.row.line: register for registers in tables[meter.constant].values() for register in registers}
        lines += ["", f"const struct register_row {meter.constant.lower()}_rows[] = {{"]
        lines += [line_of_rows(known[row.line]) for row in meter.rows]
        lines += ['    { 0, 0, 0, 0, 0, NULL, NULL, NULL }', "};"]
    return "\n".join(lines + [""])


MADE = {"docs/REGISTERS.md": page, "sheets/registers.csv": table, "include/cedarskein_registers.h": header, "demo/register_rows.c": rows}


def read(path):
    try:
        with open(path, encoding="utf-8", newline="") as file:
            return file.read()
    except FileNotFoundError:
        return ""


def write(made):
    for path, text in made.items():
        with open(path, "w", encoding="utf-8", newline="") as file:
            file.write(text)
    return 0


def check(made):
    stale = [path for path, text in made.items() if read(path) != text]
    for path in stale:
        print(f"FAILED: {path} is not what tools/registers.py makes of the sheets and {LIST}: make registers writes it", file=sys.stderr)
    return 1 if stale else 0


def main():
    os.chdir(ROOT)
    if sys.argv[1:] not in ([], ["--check"]):
        print(__doc__, file=sys.stderr)
        return 2
    try:
        meters = meters_of(read(LIST))
        tables = tables_of(meters)
    except (Wrong, OSError) as wrong:
        print(wrong, file=sys.stderr)
        return 1
    made = {path: maker(meters, tables) for path, maker in MADE.items()}
    return check(made) if sys.argv[1:] else write(made)


if __name__ == "__main__":
    sys.exit(main())
