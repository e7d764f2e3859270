"""Prints the tables of docs/BENCH.md, or writes them there between its markers: tables.py PROGRAM FAST_OBJECT ARCHIVE [DOCUMENT].

The environment says which compiler built the program (CC), which `size` reads objects of its processor (SIZE), and with
what it is run (RUN, empty where the host is x86-64: only there times mean something)."""
import concurrent.futures
import os
import re
import shlex
import subprocess
import sys

import count

HEADER = os.path.join(os.path.dirname(os.path.dirname(os.path.abspath(__file__))), "include", "cedarskein.h")
GOAL_RATIO, GOAL_STACK = 2.0, 1024
UX = [("ux_read_2", "UX, 03 of 2 words at 0101"), ("ux_read_23", "UX, 03 of 23 words at 0100"),
      ("ux_write", "UX, 06 at 010F"), ("ux_write_2", "UX, 10 of 2 words at 010F"),
      ("ux_other_station", "UX, another station's frame"), ("ux_bad_check_8", "UX, a bad check, 8 bytes"),
      ("ux_sheet_check", "UX, the sheet check alone")]
LARGEST = [("largest_read_47", "largest sheet, 03 of 47 words"), ("largest_write_45", "largest sheet, 10 of 45 words"),
           ("largest_last_bad", "largest sheet, 10 of 45 words, the last item bad"),
           ("largest_sheet_check", "largest sheet, the sheet check alone")]
WHY = [("why_ux_bad_check_8", "why, UX, a bad check, 8 bytes"), ("why_ux_other_station", "why, UX, another station's frame"),
       ("why_ux_read_2", "why, UX, 03 of 2 words at 0101"), ("why_ux_read_24", "why, UX, 03 of 24 words at 0100, the last address bad"),
       ("why_ux_write_2", "why, UX, 10 of 2 words at 010F"), ("why_ux_too_low", "why, UX, 06 at 0100, the item too low"),
       ("why_ux_too_high", "why, UX, 06 at 0100, the item too high"), ("why_largest_read_47", "why, largest sheet, 03 of 47 words"),
       ("why_largest_write_45", "why, largest sheet, 10 of 45 words"),
       ("why_largest_last_bad", "why, largest sheet, 10 of 45 words, the last item bad")]
PRESETS = [("presets_write_7", "AS-WE 40, 10 of 7 words at 0118, all its presets"),
           ("presets_write_half", "AS-WE 40, 06 at 011B, the upper half of a preset"),
           ("presets_read", "AS-WE 40, 03 of 7 words at 0118, which is refused"), ("presets_sheet_check", "AS-WE 40, the sheet check alone"),
           ("presets_fresh", "AS-WE 40, a fresh bank"), ("why_presets_read", "why, AS-WE 40, 03 of 7 words at 0118")]
RECORDS = [("records_1_read", "03 of a record of 22 words, ring of 1 record"),
           ("records_6600_read", "03 of a record of 22 words, ring of 6,600 records"),
           ("records_1_add", "a record of 22 words added, ring of 1 record"),
           ("records_6600_add", "a record of 22 words added, ring of 6,600 records"),
           ("records_1_check", "the ring check, ring of 1 record"), ("records_6600_check", "the ring check, ring of 6,600 records"),
           ("why_records_1_read", "why, 03 of a record of 22 words, ring of 1 record"),
           ("why_records_6600_read", "why, 03 of a record of 22 words, ring of 6,600 records")]
CHECK = [("check_value_8", "the check value of 8 bytes"), ("check_value_100", "the check value of 100 bytes"),
         ("check_take_1", "one byte into a running state")]
ASKING = [("query_read", "the query of a read"), ("query_values_45", "the query of 45 values"),
          ("reply_words_47", "a reply of 47 words read"), ("reply_echo", "the echo of a write read"), ("reply_error", "an error read")]
CALLS = UX + LARGEST + WHY + PRESETS + RECORDS + ASKING + CHECK
GROWTH = [("items", "sheet check, 1 area, items: {}", "items_{}_check", (2, 8, 32, 64)),
          ("items", "03 of 2 words, 1 area, items: {}", "items_{}_read", (2, 8, 32, 64)),
          ("areas", "sheet check, 8 items, areas: {}", "areas_{}_check", (1, 2, 4, 8)),
          ("areas", "03 of 8 words, 8 items, areas: {}", "areas_{}_read", (1, 2, 4, 8)),
          ("bytes", "UX, a bad check, {} bytes", "ux_bad_check_{}", (8, 50, 100)),
          ("bytes", "the check value alone, {} bytes", "check_value_{}", (8, 50, 100)),
          ("words", "03 of a record, words: {}", "record_words_{}_read", (1, 22, 47)),
          ("words", "a record added, words: {}", "record_words_{}_add", (1, 22, 47)),
          ("words", "a query of values, words: {}", "query_values_{}", (1, 22, 45)),
          ("words", "a reply read, words: {}", "reply_words_{}", (1, 22, 47))]
PROFILED = ["ux_read_2", "ux_write", "ux_sheet_check", "largest_write_45", "largest_sheet_check", "why_ux_read_2",
            "why_largest_write_45", "records_6600_read", "records_6600_add", "query_values_45", "reply_words_47"]
SIDES = ["archive", "fast"]
RUN = shlex.split(os.environ.get("RUN", ""))


def goal_size():
    """The bytes of code and constants that the header promises at most."""
    with open(HEADER, encoding="utf-8") as file:
        return 1024 * int(re.search(r"At most (\d+) KiB of code and constants", file.read()).group(1))


def said(command):
    return subprocess.run(command, check=True, stdout=subprocess.PIPE, text=True).stdout


def counted(program):
    """Instructions by function, for each row and side; two emulators at a time."""
    rows = [row for row, _ in CALLS] + [name.format(n) for _, _, name, sizes in GROWTH for n in sizes]
    keys = sorted({(row, side) for row in rows for side in SIDES})
    with concurrent.futures.ThreadPoolExecutor(2) as pool:
        costs = pool.map(lambda key: count.of_call_alone(program, key[1], key[0]), keys)
        return dict(zip(keys, costs))


def total(costs, row, side):
    return round(sum(costs[row, side].values()))


def table(head, lines):
    rule = "|" + "|".join("---" if k == 0 else "---:" for k in range(len(head))) + "|"
    return "\n".join(["| " + " | ".join(head) + " |", rule] + ["| " + " | ".join(map(str, line)) + " |" for line in lines])


def numbers(n):
    return f"{n:,}"


def time_told(nanoseconds):
    """The loop's own time is taken off, so that of a call which takes none to speak of less than nothing can be left."""
    return nanoseconds if float(nanoseconds) >= 1 else "under 1"


def call_line(program, costs, row, name):
    archive, fast = (total(costs, row, side) for side in SIDES)
    line = [name, numbers(archive), numbers(fast), f"{archive / fast:.2f}"]
    if not RUN:
        line += [time_told(said([program, "time", side, row]).strip()) for side in SIDES]
    return line


def calls_table(program, costs):
    head = ["Call", "archive", "C", "archive / C"] + ([] if RUN else ["archive, ns", "C, ns"])
    return table(head, [call_line(program, costs, row, name) for row, name in CALLS])


def growth_lines(costs, unit, label, name, sizes):
    ends = [[total(costs, name.format(n), side) for side in SIDES] for n in sizes]
    lines = [[label.format(n), numbers(a), numbers(c), f"{a / c:.2f}"] for n, (a, c) in zip(sizes, ends)]
    more = [(last - first) / (sizes[-1] - sizes[0]) for first, last in zip(ends[0], ends[-1])]
    return lines + [[f".. for each of the {unit}", f"{more[0]:.1f}", f"{more[1]:.1f}", f"{more[0] / more[1]:.2f}"]]


def growth_table(costs):
    return table(["Call", "archive", "C", "archive / C"], [line for each in GROWTH for line in growth_lines(costs, *each)])


def section_bytes(path, prefix):
    """Bytes of the sections of an object or an archive whose names begin so."""
    lines = said([os.environ.get("SIZE", "size"), "-A", path]).splitlines()
    return sum(int(line.split()[1]) for line in lines if line.startswith(prefix))


def sizes_table(archive, fast):
    lines = []
    for name, path in (("archive", archive), ("C", fast)):
        code, constants = section_bytes(path, ".text"), section_bytes(path, ".rodata")
        lines.append([name, numbers(code), numbers(constants), numbers(code + constants)])
    return table(["", ".text", ".rodata", "together"], lines)


def stack_line(program, side, name):
    taken = {row: int(said(RUN + [program, "stack", side, row])) for row, _ in CALLS}
    most = max(taken, key=taken.get)
    return [name, taken[most], dict(CALLS)[most]]


def stack_table(program):
    return table(["", "bytes", "deepest at"], [stack_line(program, "archive", "archive"), stack_line(program, "fast", "C")])


def profile_table(costs, row):
    cost = costs[row, "archive"]
    whole = total(costs, row, "archive")
    lines = [[f"`{name}`", numbers(round(n)), f"{100 * n / whole:.0f} %"] for name, n in cost.most_common() if n >= 1]
    return table([dict(CALLS)[row], "instructions", "share"], lines)


def goals(costs, archive, stack):
    """Each goal, and by how much it is missed."""
    over = []
    for row, name in CALLS:
        whole, most = total(costs, row, "archive"), round(GOAL_RATIO * total(costs, row, "fast"))
        if whole > most:
            over.append([name, numbers(whole), numbers(most), numbers(whole - most)])
    size = section_bytes(archive, ".text") + section_bytes(archive, ".rodata")
    for name, is_now, most in (("code and constants, bytes", size, goal_size()), ("stack, bytes", stack, GOAL_STACK)):
        if is_now > most:
            over.append([name, numbers(is_now), numbers(most), numbers(is_now - most)])
    return table(["Over the goal", "is", "at most", "too much"], over) if over else "Every goal is met."


def versions():
    compiler = said([os.environ.get("CC", "gcc"), "--version"]).splitlines()[0]
    emulator = said(["qemu-x86_64", "--version"]).splitlines()[0]
    return f"Compiler of the C: {compiler}, `-O2`. Counted with {emulator}."


def all_tables(program, fast, archive):
    costs = counted(program)
    stack = int(stack_line(program, "archive", "archive")[1])
    parts = [versions(), "### Instructions per call", calls_table(program, costs), "### Goals", goals(costs, archive, stack),
             "### How the cost grows", growth_table(costs), "### Size in bytes", sizes_table(archive, fast),
             "### Stack", stack_table(program), "### Where the archive's instructions go"]
    return "\n\n".join(parts + [profile_table(costs, row) for row in PROFILED])


BETWEEN_MARKERS = re.compile(r"(<!-- tables -->\n).*?(<!-- end -->)", re.DOTALL)


def text_of(document):
    """The document's text. It is looked at before anything is measured, since that takes a while."""
    with open(document, encoding="utf-8") as file:
        text = file.read()
    if not BETWEEN_MARKERS.search(text):
        raise SystemExit(f"{document} has no markers for the tables")
    return text


def main(program, fast, archive, document=None):
    text = text_of(document) if document else ""
    tables = all_tables(os.path.abspath(program), fast, archive)
    print(tables)
    if document:
        with open(document, "w", encoding="utf-8") as file:
            file.write(BETWEEN_MARKERS.sub(lambda marks: marks[1] + tables + "\n" + marks[2], text))


main(*sys.argv[1:])
