#!/usr/bin/env python3
"""The man page cedarskein(3), made of include/cedarskein.h alone, and so the same in every word.

  python3 tools/manpage.py              writes the page to standard output
  python3 tools/manpage.py functions    the names of the header's functions, a line each"""
import os
import re
import sys

HEADER = os.path.join(os.path.dirname(os.path.dirname(os.path.abspath(__file__))), "include", "cedarskein.h")
COMMENT = r"/\*((?:[^*]|\*(?!/))*)\*/"
FUNCTION = re.compile(COMMENT + r"\n(uint\d+_t (cedarskein_\w+)\([^;]*\);)")
# the numbers of a call have their comment above them, the reasons, the sides and the orders behind them
NUMBER = re.compile(COMMENT + r"\s+(CEDARSKEIN_\w+) = (\d+)")
TOLD = re.compile(r"(CEDARSKEIN_\w+) = (\d+),?\s+" + COMMENT)
SIZE = re.compile(r"^#define (CEDARSKEIN_\w+) (\w+) +/\* (.*) \*/$", re.M)
# a line that begins an entry of a list inside a comment: a dash, or the numbers or reasons that it is about
ENTRY = re.compile(r"- |(?:\d+|the first of [\w, ]+|for (?:CEDARSKEIN_\w+|every other \w+)): ")


def lines_of(comment):
    """The lines of a comment without what frames them."""
    lines = [re.sub(r"^\s*\* ?", "", line).rstrip() for line in comment.strip().split("\n")]
    return lines if lines[-1] else lines[:-1]


def roff(text):
    text = text.replace("\\", "\\e").replace("-", "\\-")
    return "\\&" + text if text.startswith((".", "'")) else text


def indent_of(line):
    return len(line) - len(line.lstrip())


def body(lines):
    """Text as roff: paragraphs, the entries of lists, and lines of code or of a table, told apart by how far they stand in. A line of a table whose
    first column is empty stands in further than the one that the table begins with, and so it does on the page."""
    base = min((indent_of(line) for line in lines if line), default=0)
    out, entry, fresh, code = [], None, True, None
    for line in lines:
        inside = indent_of(line) - base
        text = line.strip()
        if not text:
            out.append(".PP")
            entry, fresh, code = None, True, None
        elif ENTRY.match(text):
            out += [".IP \\(bu 3" if text.startswith("- ") else ".IP", roff(text[2:] if text.startswith("- ") else text)]
            entry, fresh = inside, False
        elif inside > 0 and entry is None and fresh:
            code = inside if code is None else code
            out += [".EX", "    " + " " * (inside - code) + roff(text), ".EE"]
        else:
            if entry is not None and inside <= entry:
                out.append(".PP")
                entry = None
            out.append(roff(text))
            fresh = False
    return out


def sections(lines):
    """The first comment as (heading, lines): a heading stands alone, and what it is over stands in."""
    found = [("DESCRIPTION", [])]
    for k, line in enumerate(lines):
        alone = line and indent_of(line) == 0 and k + 2 < len(lines) and not lines[k + 1] and indent_of(lines[k + 2]) > 0
        if alone:
            found.append((line.upper(), []))
        else:
            found[-1][1].append(line)
    return found


def synopsis(functions):
    out = [".SH SYNOPSIS", ".nf", ".B #include <cedarskein.h>", ".PP"]
    for _, prototype, _ in functions:
        first, *others = [roff(line.strip()) for line in prototype.split("\n")]
        out += [f"\\fB{line}\\fR" for line in [first, *("        " + line for line in others)]] + [".PP"]
    return out + [".fi"]


def enum(text, name):
    """The lines in front of an enum, and what stands in it."""
    intro, inside = re.search(COMMENT + rf"\nenum {name} {{\n(.*?)^}};", text, re.M | re.S).groups()
    return body(lines_of(intro)), inside


def numbers(text):
    intro, inside = enum(text, "cedarskein_number")
    out = [".SH RETURN VALUE", *intro]
    for comment, name, number in NUMBER.findall(inside):
        out += [".TP", f".BR {name} \" ({number})\"", *body(lines_of(comment))]
    return out


def told(text, name, heading):
    intro, inside = enum(text, name)
    out = [".SH " + heading, *intro]
    for case, number, comment in TOLD.findall(inside):
        out += [".TP", f".BR {case} \" ({number})\"", *body(lines_of(comment))]
    return out


def sizes(text):
    out = [".SH CONSTANTS"]
    for name, number, remark in SIZE.findall(text):
        out += [".TP", f".BR {name} \" ({number})\"", roff(remark)]
    return out


def page(text):
    lead = lines_of(re.match(COMMENT, text).group(1))
    version = re.search(r'CEDARSKEIN_VERSION "(.*)"', text).group(1)
    functions = FUNCTION.findall(text)
    names = ", ".join(["cedarskein"] + [name for _, _, name in functions])
    title = lead[0].partition(": ")[2].rstrip(".")
    (_, first), *others = sections(lead[1:])
    out = [f'.TH CEDARSKEIN 3 "" "cedarskein {version}" "Library Functions Manual"', ".SH NAME", f"{names} \\- {roff(title)}"]
    out += synopsis(functions) + [".SH DESCRIPTION"] + body(first)
    for comment, _, name in functions:
        out += [".SS " + name, *body(lines_of(comment))]
    out += numbers(text)
    for name, heading in (("cedarskein_reason", "REASONS"), ("cedarskein_side", "SIDES"), ("cedarskein_order", "ORDERS")):
        out += told(text, name, heading)
    out += sizes(text)
    for heading, lines in others:
        out += [".SH " + heading, *body(lines)]
    out += [".SH SEE ALSO", ".BR pkg-config (1),", "the headers", ".I cedarskein_sheets.h", "and", ".I cedarskein_registers.h"]
    return "\n".join(out) + "\n"


def main():
    with open(HEADER, encoding="utf-8") as file:
        text = file.read()
    if sys.argv[1:] == ["functions"]:
        print("\n".join(name for _, _, name in FUNCTION.findall(text)))
    elif not sys.argv[1:]:
        sys.stdout.write(page(text))
    else:
        print(__doc__, file=sys.stderr)
        return 2
    return 0


if __name__ == "__main__":
    sys.exit(main())
