#!/usr/bin/env python3
"""Holds the pages of docs/ to the tree.

  python3 tools/claims.py             a line for each thing that does not hold, and exit status 1; nothing where all hold
  python3 tools/claims.py --missing   what the pages leave out: public functions that CLAIMS does not cite, must-fail edits that neither it nor
                                      SLIPS does, lengths of specs/ that moved, rules that no comment of specs/ cites

Held: every file that a page cites is there and declares every name that is cited with it; every rule that is cited anywhere stands in
docs/RULES.md, once. (docs/CHANGES.md tells of names that are gone, and is looked at for rules alone.)

A citation stands in backquotes:
  crates/NAME/specs/File.antt: name, name     declarations of a file of definitions or proofs
  crates/NAME/src/lib.rt: name                functions and types of Rattle
  crates/NAME/must-fail: name, name           edits, the files crates/NAME/must-fail/name.edit
  crates/NAME/specs/File.antt                 a file or a folder alone
  host/refusals.c, docs/BENCH.md              a file or a folder outside of crates/, alone

A rule is cited as "rule S5", "rules S5, S6 and S7" or "rules S0 to S11", on one line; in RULES.md also as "(S5)", "(S0 to S11)".
"""
import glob
import os
import re
import sys

ROOT = os.path.dirname(os.path.dirname(os.path.abspath(__file__)))
CLAIMS, RULES, SLIPS, CHANGES = "docs/CLAIMS.md", "docs/RULES.md", "docs/SLIPS.md", "docs/CHANGES.md"
FOLDERS = ("crates/", "host/", "demo/", "bench/", "include/", "sheets/", "tools/", "docs/")
CITATION = re.compile(r"((?:crates|host|demo|bench|include|sheets|tools|docs)/[\w./+-]*)(?:: (.+))?$")
# what declares a name, by the ending of the file: N stands for the name
DECLARES = {
    ".antt": [r"^\s*(?:(?:abbrev|unfoldable)\s+)?pub\s+N\s*:", r"^\s*pub\s+(?:record|data)\s+N(?=[\s:({]|$)"],
    ".rt": [r"^\s*(?:pub(?:\([^)]*\))?\s+)?(?:extern \"C\" )?(?:fn|struct|enum|const)\s+N\b"],
}
RULE = re.compile(r"^- \*\*([A-Z]\d+)\*\* ", re.M)
NUMBERS = r"([A-Z]\d+(?:(?:, | and | to )[A-Z]\d+)*)"
# where rules may be cited
TEXTS = ("README.md", "docs/*", "include/*", "host/**", "demo/*", "bench/*", "crates/*/specs/*", "crates/*/src/**", "crates/*/proofs/**", "crates/*/must-fail/*")


def read(path):
    with open(path, encoding="utf-8", errors="replace") as file:
        return file.read()


def found(*patterns):
    return sorted({p for pattern in patterns for p in glob.glob(pattern, recursive=True) if os.path.isfile(p)})


# ---- citations of files and names

def spans(text):
    """(line number, text) of everything in backquotes, outside of fenced blocks."""
    fenced = False
    for number, line in enumerate(text.split("\n"), 1):
        if line.lstrip().startswith("```"):
            fenced = not fenced
        elif not fenced:
            if line.count("`") % 2:
                yield number, None
            for span in re.findall(r"`([^`]+)`", line):
                yield number, span


def citations(text):
    """(line number, path, names), or (line number, None, what is wrong)."""
    for number, span in spans(text):
        if span is None:
            yield number, None, "a backquote without its other"
        elif span.startswith(FOLDERS):
            cited = CITATION.match(span)
            if not cited:
                yield number, None, f"not a citation: {span}"
            else:
                yield number, cited.group(1).rstrip("/"), cited.group(2).split(", ") if cited.group(2) else []


def declared(path, name):
    patterns = DECLARES.get(os.path.splitext(path)[1], [])
    return any(re.search(p.replace("N", re.escape(name), 1), read(path), re.M) for p in patterns)


def judged(path, names):
    """What is wrong with a citation, a line each."""
    if not os.path.exists(path):
        return [f"{path}: no such file"]
    if path.endswith("/must-fail"):
        return [f"{path}: no edit {name}" for name in names if not os.path.isfile(f"{path}/{name}.edit")]
    if os.path.isdir(path):
        return [f"{path}: a folder declares no {name}" for name in names]
    return [f"{path}: no declaration of {name}" for name in names if not declared(path, name)]


def wrong_citations(page):
    rows = []
    for number, path, names in citations(read(page)):
        said = [names] if path is None else judged(path, names)
        rows += [f"{page}:{number}: {line}" for line in said]
    return rows


# ---- citations of rules

def rules_cited(path):
    """(line number, citation) of every citation of rules in a file, as "S5, S6" or "S0 to S11"."""
    forms = [r"\b[Rr]ules? " + NUMBERS] + ([r"\(" + NUMBERS + r"\)"] if path == RULES else [])
    for number, line in enumerate(read(path).split("\n"), 1):
        yield from ((number, cited) for form in forms for cited in re.findall(form, line) if cited[0] != "W")


def meant(cited):
    """The rules of a citation, those between the ends of a range too."""
    for letter, first, last in re.findall(r"([A-Z])(\d+)(?: to [A-Z](\d+))?", cited):
        yield from (f"{letter}{n}" for n in range(int(first), int(last or first) + 1))


def wrong_rules():
    rules = RULE.findall(read(RULES))
    rows = [f"{RULES}: rule {rule} stands twice" for rule in sorted(set(rules)) if rules.count(rule) > 1]
    for path in found(*TEXTS):
        for number, cited in rules_cited(path):
            rows += [f"{path}:{number}: no rule {rule} in {RULES}" for rule in re.findall(r"[A-Z]\d+", cited) if rule not in rules]
    return rows


# ---- what the pages leave out

def missing_functions(cited):
    rows = []
    for path in found("crates/*/src/**/*.rt"):
        library = os.path.exists("/".join(path.split("/")[:2]) + "/src/lib.rt")
        for name in re.findall(r"^\s*pub\s+(?:extern \"C\" )?fn\s+(\w+)", read(path), re.M) if library else []:
            if (path, name) not in cited:
                rows.append(f"{path}: {name} is public and not cited")
    return rows


def missing_lengths(text):
    rows = []
    for folder in sorted(glob.glob("crates/*/specs")):
        lines = sum(read(p).count("\n") for p in glob.glob(folder + "/*.antt"))
        if lines and not re.search(rf"^\s*\| `{folder}` \| {lines} \|", text, re.M):
            rows.append(f"{folder}: has {lines} lines, which {CLAIMS} does not say")
    return rows


def missing_rules():
    """Rules that name a definition, and that no comment of specs/ cites by their own number."""
    cited = {rule for path in found("crates/*/specs/*.antt") for _, group in rules_cited(path) for rule in meant(group)}
    parts = RULE.split(read(RULES))[1:]
    return [f"{RULES}: no comment of specs/ cites rule {rule}" for rule, text in zip(parts[::2], parts[1::2]) if "/specs/" in text and rule not in cited]


def missing():
    text = read(CLAIMS)
    rows = missing_functions({(path, name) for _, path, names in citations(text) for name in names if path})
    pages = text + "\n" + (read(SLIPS) if os.path.isfile(SLIPS) else "")
    edits = {f"{path}/{name}.edit" for _, path, names in citations(pages) for name in names if path}
    rows += [f"{path}: not cited" for path in found("crates/*/must-fail/*.edit") if path not in edits]
    return rows + missing_lengths(text) + missing_rules()


def main():
    os.chdir(ROOT)
    absent = [page for page in (CLAIMS, RULES) if not os.path.isfile(page)]
    if absent:
        rows = [f"{page}: no such file" for page in absent]
    elif sys.argv[1:] == ["--missing"]:
        rows = missing()
    elif not sys.argv[1:]:
        rows = [row for page in found("docs/*.md") if page != CHANGES for row in wrong_citations(page)] + wrong_rules()
    else:
        print(__doc__.strip())
        return 2
    for row in rows:
        print(row)
    return 1 if rows else 0


sys.exit(main())
