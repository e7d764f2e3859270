#!/usr/bin/env python3
"""Brings the repository's own definitions and lemmas to the spelling of today's Rattle: words in snake case. It was run once, behind the kit's port.py.

  python3 tools/port_names.py [ROOT]

What is declared in crates/*/specs and in crates/*/proofs, but not in the proof of one function, is the repository's own: a definition, a lemma, a
field, a constructor, a helper behind `where`. Of these and of every variable the humps go, as in byteAt to byte_at, and of what is declared the dashes, as in
bytes-none to bytes_none; types and modules keep their capitals, and names of the kit theirs. Where two names of one file fall together, the lemma gets
`_lem` behind it. Pages and lists of names follow where a name stands in backquotes, edits and slips in their lines of code.
"""
import collections
import glob
import os
import re
import sys

ROOT = sys.argv[1] if len(sys.argv) > 1 else "."
TOKEN = r"[A-Za-z_][\w'′]*(?:-[\w'′≢≡≤<+*]+)*"
HEX = re.compile(r"^x[0-9A-F]+$")
# what the kit's script respelled of names that stand for a function's own module
ALIAS = re.compile(r"^use (Rattle\.\w+\.proofs\.(?:\w+\.)*?(\w+))\.(Kinds|Reads) as ([\w'-]+)$", re.M)
# names of the repository's own that port.py took for the kit's
GARBLED = {"IsPlace-in": "place_in", "IsStore-byte": "store_byte", "Store-word": "store_word", "Kept-back": "kept_back", "All-apart": "all_apart", "byte-Reads": "byte_reads",
           "start_Satisfies": "start_satisfies"}


def read(path):
    with open(path, encoding="utf-8") as f:
        return f.read()


def write(path, text):
    if read(path) != text:
        with open(path, "w", encoding="utf-8") as f:
            f.write(text)


def files(*patterns):
    return sorted({p for pattern in patterns for p in glob.glob(os.path.join(ROOT, pattern), recursive=True) if os.path.isfile(p)})


def uncommented(text, mark):
    return re.sub(re.escape(mark) + r".*", "", text)


def snake(name):
    return re.sub(r"(?<=[a-z0-9])([A-Z])", lambda m: "_" + m.group(1).lower(), name)


def is_hump(name):
    return bool(re.match(r"[a-z]\w*[a-z0-9][A-Z]", name) or re.match(r"[a-z]+[A-Z]", name)) and not HEX.match(name)


LOGIC = files("crates/*/specs/**/*.antt") + [p for p in files("crates/*/proofs/*.antt")]
IN_FUNCTIONS = [p for p in files("crates/*/proofs/**/*.antt") if p not in LOGIC]
SOURCE = files("crates/*/src/**/*.rt")

declared = set()
foreign = set()
for path in LOGIC:
    text = uncommented(read(path), "--")
    for m in re.finditer(r"^\s*(?:abbrev |unfoldable )?(?:pub )?(?:data |record )?((?:%s\s+)+)(?=:)" % TOKEN, text, re.M):
        declared |= set(m.group(1).split())
for path in LOGIC + IN_FUNCTIONS + SOURCE:
    for m in re.finditer(r"^(?:ghost )?use (?!Rattle\.(?!std\b))[^\n{]*\{([^}]*)\}", read(path), re.M):
        foreign |= {w.split(" as ")[0].strip() for w in m.group(1).split(",")}
declared -= foreign
definitions = {snake(d) for d in declared if "-" not in d and d not in GARBLED} | foreign
dashed = {}
for d in declared:
    if "-" in d and not d.startswith("Need-") and d not in GARBLED:
        dashed[d] = "_".join(snake(p) if is_hump(p) else p for p in d.split("-"))
        if dashed[d] in definitions:
            dashed[d] += "_lem"
dashed |= GARBLED
humps = {snake(d) for d in declared if is_hump(d)}
# lemmas that port.py had respelled, and with which a definition now falls together
CLASH = {d for d in declared if d in humps and not is_hump(d)}


def turned(name):
    if name in dashed:
        return dashed[name]
    parts = name.split("-")
    return "-".join(snake(p) if is_hump(p) else p for p in parts) if name not in foreign else name


def turn(text, mark, path):
    """A file's text: every token, but in comments the humps everywhere and the dashes in backquotes."""
    out = []
    for line in text.split("\n"):
        at = line.find(mark) if mark else -1
        while at > 0 and line[:at].count('"') % 2:
            at = line.find(mark, at + 1)
        code, comment = (line, "") if at < 0 else (line[:at], line[at:])
        pieces = re.split(r'("(?:[^"\\]|\\.)*")', code)
        pieces = [p if p.startswith('"') and p.endswith('"') and len(p) > 1 else re.sub(r"(?<![\w'·-])" + TOKEN, lambda m: turned(m.group(0)), clashing(p, mark)) for p in pieces]
        out.append("".join(pieces) + spoken(comment))
    return "\n".join(out)


def clashing(text, mark):
    return re.sub(r"(?<![\w'·.-])" + TOKEN, lambda m: m.group(0) + "_lem" if m.group(0) in CLASH else m.group(0), text) if mark == "--" else text


def edited(text):
    """An edit or a slip: its lines of code, with a projection tight."""
    lines = []
    for line in text.split("\n"):
        m = re.match(r"(old: |new: )(.*)", line)
        if m:
            code = m.group(2)
            old = None
            while old != code:
                old = code
                code = re.sub(r"\(((?:\w+|\([^()]*\))(?:\.\w+)*) \.(\w+)\)", r"\1.\2", code)
            code = re.sub(r"(?<=[\w)]) \.(?=[a-z0-9])", ".", code) if not code.lstrip().startswith(".") else code
            code = re.sub(r"(?<![\w'])_([≡≤<+*/%∷&|ℤ^-]|\+\+|&&|-ℤ|≤ℤ|==)_(?![\w'])", "◌\\1◌", code)
            code = code.replace("the-variants", "TheVariants").replace("getD", "get_or").replace("Rattle·", "Rattle.")
            line = m.group(1) + turn(code, None, "")
        lines.append(line)
    return "\n".join(lines)


def spoken(text):
    """Prose: names in backquotes."""
    def span(m):
        return re.sub(r"(?<![\w'·/-])" + TOKEN, lambda n: turned(n.group(0)) if n.group(0) in dashed or is_hump(n.group(0)) or "-" in n.group(0) else n.group(0), m.group(0))

    return re.sub(r"`[^`\n]+`", span, text)


def modules(text):
    """Aliases of a function's own modules: the function's name, and with _reads behind it."""
    for m in ALIAS.finditer(text):
        want = m.group(2) + ("_reads" if m.group(3) == "Reads" else "")
        if m.group(4) != want:
            text = re.sub(r"(?<![\w'.-])" + re.escape(m.group(4)) + r"(?=\.(?:ps|r|Post|Allows)\b)", want, text)
            text = text.replace(m.group(0), f"use {m.group(1)}.{m.group(3)} as {want}")
    return text


if __name__ == "__main__":
    for path in LOGIC + IN_FUNCTIONS:
        write(path, turn(modules(read(path)), "--", path))
    for path in SOURCE:
        write(path, turn(read(path), "//", path))
    for path in files("crates/*/must-fail/*.edit", "tools/mutants.txt"):
        write(path, edited(read(path)))
    for path in files("README.md", "docs/*.md"):
        write(path, spoken(read(path)))
    print(f"{len(declared)} names declared, {len(dashed)} of them with a dash")
