#!/usr/bin/env python3
"""Would a slip be noticed? Makes one slip at a time in a copy of the repository, and says what refuses it.

  python3 tools/mutants.py [--sort SORT] [--only CRATE] [--like TEXT] [--jobs N] [--room DIR] [--anew]   tries slips, by TEXT those with it in their name
  python3 tools/mutants.py --list ..      shows them, and tries none
  python3 tools/mutants.py --one NAME     tries one, and shows what was said of it
  python3 tools/mutants.py --record       writes what was found of every slip into docs/SLIPS.txt, and tries none; of one that the room does not know
                                          it keeps the line that is there

Three sorts (left out are specs/ of meter, sheet and controller, which only private promises cite, and of runs, whose statements are about the model machine):

  definition  a slip of a definition, the code untouched. Found by pattern: each number of specs/ one higher and one lower (those of the
              makers' maps one higher), each comparison, each `and`, `or` and `not` for another; and the hand-written ones of tools/mutants.txt, which change an order, an arm or a field.
  statement   the same of the statements that are typed in specs/ themselves (crates plain and exchange, files Theorems.antt), each number one higher. Those of
              exchange, whose theorems are over contracts, are tried in a whole copy.
  code        a slip of the code, from tools/mutants.txt.

A definition's slip says nothing where the proof of a function refuses it: the function was not changed. So it is tried in two copies that
have no functions at all, where a definition binds nothing but statements. The first has the tables alone, the files of proofs/ that compute a
statement from definitions: a table that is no longer right is false, whatever a proof might say, and no lemma can stand in its way. What passes every
table is tried in the second copy, which has every theorem over definitions. Each crate from the slip upward is checked, until one refuses. There a
theorem that docs/CLAIMS.md cites counts; a lemma that fails in front of it is told as a lemma.

What was found is kept in the room, so that a run that is broken off goes on where it stopped; --anew forgets it.
"""
import argparse
import collections
import concurrent.futures
import glob
import hashlib
import json
import os
import re
import shutil
import subprocess
import sys
import tempfile
import threading
import time

ROOT = os.path.dirname(os.path.dirname(os.path.abspath(__file__)))
BY_HAND = os.path.join(ROOT, "tools", "mutants.txt")
PAGE = os.path.join(ROOT, "docs", "CLAIMS.md")
RECORD = os.path.join(ROOT, "docs", "SLIPS.txt")
LINE_FEED = "↵"
LONGEST_CHECK = 600

# the crates that hold definitions, without their functions, in an order in which they can be checked; the quick tables first
BARE = "lists words refusals check_value range sheet_rules makers listing bank_rules ring_rules frame controller_rules meter_rules why_rules plain".split()
# the statements that are typed in specs/
STATED = ["plain"]
# and those of a crate whose theorems are over contracts: its slips are tried in the whole copy
STATED_OVER_CONTRACTS = ["exchange"]
# and the files of other crates that only statements speak of
STATED_FILES = ["Theorems"]
# the files that compute a statement from the definitions, and stand on nothing else of proofs/
TABLES = {
    "words": ["Edges"],
    "check_value": ["Witness"],
    "range": ["SideCases"],
    "sheet_rules": ["Terms", "Sides", "SheetLimits"],
    "makers": ["Sheets"],
    "bank_rules": ["BankLimits"],
    "ring_rules": ["RingLimits"],
    "frame": ["Rooms"],
    "controller_rules": ["QueryCases", "ReplyCases"],
    "meter_rules": ["CaseSet", "FrameLimits", "RecordLimits", "PresetLimits"],
    "why_rules": ["ReasonCases", "RecordReasons", "SideReasons", "PresetReasons"],
    "listing": ["Example", "Texts", "Makers"],
}

# what refuses a slip
TABLE, THEOREM, LEMMA, FUNCTION, DEFINITION, NOTHING, NOT_TRIED = \
    "table", "theorem", "lemma", "function's proof", "does not hold together", "nothing", "not tried"

# `old` is a text that stands in the file once; where a line is given it is a whole line
Change = collections.namedtuple("Change", "file line old new")
Slip = collections.namedtuple("Slip", "name sort crate says same changes")


def read(path):
    with open(path, encoding="utf-8") as file:
        return file.read()


def write(path, text):
    with open(path, "w", encoding="utf-8") as file:
        file.write(text)


# ---- the crates

def crates():
    """Each crate of crates.txt, in its order, with those of the repository that it stands on."""
    found = {}
    for line in read(os.path.join(ROOT, "crates.txt")).split("\n"):
        line = line.split("#")[0]
        if ":" in line:
            name, below = line.split(":")
            found[name.split()[0]] = below.split()
    return {name: [b for b in below if b in found] for name, below in found.items()}


CRATES = crates()


def crate_of(path):
    return path.split("/")[1]


def from_here_up(names, edited):
    """Those of some crates that are edited or stand on one that is, in the order given."""
    def reaches(crate):
        return crate in edited or any(reaches(below) for below in CRATES[crate])
    return [crate for crate in names if reaches(crate)]


# ---- slips found by pattern

HEAD = re.compile(r"^(?:abbrev |unfoldable )?(?:pub )?(?:record |data )?([^\W\d][\w'-]*) (?:\(.*\) )?:(?: |$)")
FIELD = re.compile(r"^  pub [^\W\d][\w'-]* :")
SKIPPED = re.compile(r"^(use |pub mod|unfolding|\s*--|\s*unfolding )")
NUMBER = re.compile(r"(?<![\w.'«-])(0x[0-9A-Fa-f]+|\d+)(?![\w'»])")
SIGNS = [
    (re.compile(r"\bltb\b"), "leb"), (re.compile(r"\bleb\b"), "ltb"), (re.compile(r"\beqb\b"), "leb"), (re.compile(r"(?<= )<(?= )"), "≤"),
    (re.compile(r"(?<= )≤(?= )"), "<"), (re.compile(r"&&"), "||"), (re.compile(r"\|\|"), "&&"), (re.compile(r"\bnot (?=\()"), ""),
]


# A limit has two sides, and so two slips. A number of a map or of a statement is a fact: it is right or it is not.
BOTH_WAYS, ONE_WAY = (1, -1), (1,)


def moved(digits, by):
    """A number of the same form, so much higher; nothing where it would be below 0."""
    base = 16 if digits.startswith("0x") else 10
    value = int(digits, base) + by
    if value < 0:
        return None
    return "0x" + format(value, "X").rjust(len(digits) - 2, "0") if base == 16 else str(value)


def second_argument(text):
    """The second of the arguments that stand behind a name, each a word or in parentheses."""
    found, depth = [""], 0
    for letter in text.lstrip() + " ":
        depth += (letter == "(") - (letter == ")")
        if depth < 0 or (depth == 0 and letter == " "):
            if len(found) == 2 or depth < 0:
                return found[-1].strip()
            found.append("")
        else:
            found[-1] += letter
    return found[-1].strip()


def line_slips(code, steps):
    """(what is changed, the changed line) for each number and sign of a line."""
    for match in NUMBER.finditer(code):
        if code[:match.start()].endswith(("Type ", "{")):
            continue
        for by in steps:
            other = moved(match.group(1), by)
            if other is not None:
                yield f"{match.group(1)} to {other}", code[:match.start()] + other + code[match.end():]
    for sign, usual in SIGNS:
        for match in sign.finditer(code):
            # at most 0 is 0: there the slip is another
            other = "ltb" if match.group(0) == "eqb" and second_argument(code[match.end():]) == "0" else usual
            yield f"{match.group(0).strip()} to {other or 'nothing'}", code[:match.start()] + other + code[match.end():]


def file_slips(path):
    """Every slip by pattern of a file of specs/."""
    crate, stem = crate_of(path), os.path.splitext(os.path.basename(path))[0]
    definition, count = "", 0
    for at, line in enumerate(read(os.path.join(ROOT, path)).split("\n")):
        if SKIPPED.match(line) or not line.strip():
            continue
        head, field = HEAD.match(line), FIELD.match(line)
        if head and not field:
            definition, count = head.group(1), 0
            continue
        code, dashes, behind = line.partition("--")
        sort = "statement" if crate in STATED + STATED_OVER_CONTRACTS or stem in STATED_FILES else "definition"
        for what, changed in line_slips(code, ONE_WAY if sort == "statement" or stem == "Maps" else BOTH_WAYS):
            count += 1
            yield Slip(f"{crate}.{stem}.{definition}.{count}", sort, crate, f"{what}: {changed.strip()}", [], [Change(path, at, line, changed + dashes + behind)])


def slips_by_pattern():
    for crate in CRATES:
        if crate in BARE + STATED_OVER_CONTRACTS:
            for path in sorted(glob.glob(os.path.join(ROOT, "crates", crate, "specs", "*.antt"))):
                yield from file_slips(os.path.relpath(path, ROOT))


# ---- slips by hand

def slips_by_hand():
    """The slips of tools/mutants.txt, whose first lines say how they are written."""
    slips, file, old = [], None, None
    for line in read(BY_HAND).split("\n"):
        key, _, value = line.partition(": ")
        value = value.replace(LINE_FEED, "\n")
        if key in ("definition", "statement", "code"):
            head, _, says = value.partition(", ")
            name, crate = head.split()
            slips.append(Slip(name, key, crate, says, [], []))
        elif key == "same":
            slips[-1].same.append(value)
        elif key == "file":
            file = value
        elif key == "old":
            old = value
        elif key == "new":
            slips[-1].changes.append(Change(file, None, old, value))
    return slips


def same_by_pattern():
    """The slips by pattern that change nothing that a rule speaks of, with the reason: the lines `same NAME: why` of tools/mutants.txt."""
    return dict(re.findall(r"^same ([^\s:]+): (.*)$", read(BY_HAND), re.M))


def every_slip():
    reasons = same_by_pattern()
    found = [slip._replace(same=[reasons[slip.name]]) if slip.name in reasons else slip for slip in slips_by_pattern()]
    return found + slips_by_hand()


# where a sign comes from that a slip by pattern puts in place of another
SOURCES = dict.fromkeys(["leb", "ltb", "&&", "||", "≤", "<"], "Rattle.std.specs.Prelude")


def brought_in(text, line):
    """A file's text with all in scope that a line uses of these."""
    for sign, source in SOURCES.items():
        name = sign if sign.isalpha() else f"◌{sign}◌"
        if re.search(rf"(?<![\w]){re.escape(sign)}(?![\w])", line) and not re.search(r"^use .*[{ ]%s[,}]" % re.escape(name), text, re.M):
            old = re.search(r"^use %s\.\{" % re.escape(source), text, re.M)
            text = text[:old.end()] + name + ", " + text[old.end():] if old else f"use {source}.{{{name}}}\n" + text
    return text


def changed_text(text, change):
    """A file's text with a change made; what is wrong with the change, where it cannot be."""
    if change.line is not None:
        lines = text.split("\n")
        lines[change.line] = change.new
        return brought_in("\n".join(lines), change.new), None
    if text.count(change.old) != 1:
        return text, f"{change.file}: this stands there {text.count(change.old)} times: {change.old}"
    return text.replace(change.old, change.new), None


# ---- the copies

def run(command, where):
    """The exit status and all that a command said."""
    settings = dict(os.environ, RT_CUT="0", RT_JOBS="1")
    try:
        done = subprocess.run(command, cwd=where, env=settings, text=True, errors="replace", timeout=LONGEST_CHECK, stdout=subprocess.PIPE, stderr=subprocess.STDOUT)
    except subprocess.TimeoutExpired:
        return 3, f"no answer within {LONGEST_CHECK} s"
    return done.returncode, done.stdout


def check(crate, tree):
    return run(["rt", "check"], os.path.join(tree, "crates", crate))


def types_of(source):
    """The structures and enumerations of a source, and the types of other crates that they use."""
    bodies = re.findall(r"^(?:#\[derive\([\w, ]+\)\]\n)?(?:pub )?(?:struct|enum) \w+ \{\n.*?^\}$", source, re.M | re.S)
    uses = [line for line in re.findall(r"^use \w+::\w+;$", source, re.M) if re.search(r"\b" + line[:-1].split("::")[1] + r"\b", "\n".join(bodies))]
    return "\n".join(["// There is no code here.", "#![tactic(auto)]", ""] + uses + [""] + bodies) + "\n"


def bare_proofs(crate, tables_alone):
    """The files of a crate's proofs/ that cite no function, or its tables alone."""
    folder = os.path.join(ROOT, "crates", crate, "proofs")
    texts = {os.path.basename(path)[:-5]: read(path) for path in glob.glob(os.path.join(folder, "*.antt"))}
    texts.pop("Lib", None)
    if tables_alone:
        return {name: texts[name] for name in TABLES.get(crate, []) if name in texts}
    gone = {name for name in os.listdir(folder) if os.path.isdir(os.path.join(folder, name))} | {"Determined", "Linked"}
    while True:
        citing = re.compile(r"Rattle\.%s\.proofs\.(?:%s)\b" % (crate, "|".join(sorted(gone)) or "-"))
        more = {name for name, text in texts.items() if name not in gone and citing.search(text)}
        if not more:
            return {name: text for name, text in texts.items() if name not in gone}
        gone |= more


def bare_tree(target, tables_alone):
    """A copy of the crates of definitions without their functions; what is left out with a crate that is not there is left out too."""
    shutil.rmtree(target, ignore_errors=True)
    rows = []
    for crate in BARE:
        rows.append(f"{crate}: {' '.join(b for b in CRATES[crate] if b in BARE)}")
        here, there = os.path.join(ROOT, "crates", crate), os.path.join(target, "crates", crate)
        shutil.copytree(os.path.join(here, "specs"), os.path.join(there, "specs"))
        os.makedirs(os.path.join(there, "src"))
        os.makedirs(os.path.join(there, "proofs"))
        write(os.path.join(there, "src", "lib.rt"), types_of(read(os.path.join(here, "src", "lib.rt"))))
        kept = bare_proofs(crate, tables_alone)
        for name, text in kept.items():
            write(os.path.join(there, "proofs", name + ".antt"), text)
        order = re.findall(r"pub mod (\w+)", read(os.path.join(here, "proofs", "Lib.antt")))
        write(os.path.join(there, "proofs", "Lib.antt"), "".join(f"pub mod {name}\n" for name in order if name in kept))
    write(os.path.join(target, "crates.txt"), "\n".join(rows) + "\n")


def whole_tree(target):
    shutil.rmtree(target, ignore_errors=True)
    os.makedirs(target)
    shutil.copytree(os.path.join(ROOT, "crates"), os.path.join(target, "crates"), ignore=shutil.ignore_patterns("out"))
    shutil.copy(os.path.join(ROOT, "crates.txt"), target)


def digest_of(folder, *patterns):
    """A digest of the files in a folder that have one of some patterns."""
    digest = hashlib.sha256()
    for path in sorted(path for pattern in patterns for path in glob.glob(os.path.join(folder, pattern), recursive=True)):
        if os.path.isfile(path) and "/out/" not in path[len(folder):]:
            digest.update(path[len(folder):].encode() + open(path, "rb").read())
    return digest.hexdigest()


class Copy:
    """One of the copies, checked with nothing changed, and a place for each worker to change it."""

    def __init__(self, room, kind, libraries, make):
        self.path, self.kind, self.libraries, self.make, self.digest = os.path.join(room, kind), kind, libraries, make, None

    def fill(self):
        """Makes the copy anew where the sources are others, and has it checked."""
        mark, warm, fresh = (os.path.join(self.path, name) for name in ("digest", "warm", "fresh"))
        self.make(fresh)
        self.digest = digest_of(fresh, "crates/**/*", "crates.txt")
        if os.path.exists(mark) and read(mark) == self.digest:
            return
        print(f"checking the copy '{self.kind}' with nothing changed", flush=True)
        shutil.rmtree(warm, ignore_errors=True)
        os.rename(fresh, warm)
        for crate in self.libraries:
            status, said = check(crate, warm)
            if status != 0:
                sys.exit(f"the copy '{self.kind}' is refused with nothing changed:\n{said[-3000:]}")
        write(mark, self.digest)

    def recall(self):
        """Which sources the copy was made of."""
        mark = os.path.join(self.path, "digest")
        self.digest = read(mark) if os.path.exists(mark) else None

    def changed(self, slip, worker):
        """The copy with a slip made, and what is wrong with the slip, if anything."""
        work = os.path.join(self.path, f"work-{worker}")
        shutil.rmtree(work, ignore_errors=True)
        subprocess.run(["cp", "-a", os.path.join(self.path, "warm"), work], check=True)
        for change in slip.changes:
            path = os.path.join(work, change.file)
            text, wrong = changed_text(read(path), change)
            if wrong:
                return work, wrong
            write(path, text)
        return work, None


# ---- what refuses a slip

ERROR = re.compile(r"^\./(specs|proofs|src)/([\w/+]+)\.\w+:\d+:\d+: error: (?:`([^`]+)`)?(.*)", re.M)


def cited_statements():
    """The names that docs/CLAIMS.md cites, by file of proofs/."""
    cited = collections.defaultdict(set)
    for crate, name, names in re.findall(r"crates/(\w+)/proofs/([\w/]+)\.antt: ([^`]+)`", read(PAGE)):
        cited[crate, name] |= set(re.split(r"[,\s]+", names))
    return cited


def refusal(said, crate, tables, cited):
    """(what refuses, its names) by what a check of a crate said."""
    errors = [(crate, *match.groups()) for match in ERROR.finditer(said)]
    first = [e for e in errors if "was not admitted" not in e[4] and "not checked" not in e[4]]
    # a function whose proof the kit finds by itself has no file of proofs/
    unproved = re.findall(r"^fn ([\w:]+): no proof: ", said, re.M)
    if unproved and all(e[1] == "proofs" and "/" not in e[2] for e in first):
        return FUNCTION, unproved[:2]
    if not first or any(e[1] != "proofs" for e in first):
        return DEFINITION, [first[0][4].strip()[:120]] if first else [said[-200:]]
    named = [(f"crates/{crate}/proofs/{file}.antt", name or "", crate, file) for crate, _, file, name, _ in first]
    if any("/" in file for _, _, _, file in named):
        return FUNCTION, sorted({f"{place}: {name}" for place, name, _, file in named if "/" in file})[:2]
    counted = sorted({f"{place}: {name}" for place, name, crate, file in named if tables or name in cited.get((crate, file), ())})
    if counted:
        return TABLE if tables else THEOREM, counted[:3]
    return LEMMA, sorted({f"{place}: {name}" for place, name, _, _ in named})[:3]


def checked(copy, slip, worker, cited):
    """What refuses a slip in a copy, the crates from it upward in their order; and all that was said."""
    work, wrong = copy.changed(slip, worker)
    if wrong:
        return DEFINITION, [wrong], wrong
    for crate in from_here_up(copy.libraries, {crate_of(change.file) for change in slip.changes}):
        status, said = check(crate, work)
        if status != 0:
            return *refusal(said, crate, copy.kind == "tables", cited), said
    return NOTHING, [], ""


# ---- the run

class Room:
    def __init__(self, path, tables_alone):
        self.results = os.path.join(path, "results")
        self.tables = Copy(path, "tables", BARE, lambda target: bare_tree(target, True))
        self.statements = Copy(path, "statements", BARE, lambda target: bare_tree(target, False))
        programs = [c for c in CRATES if os.path.exists(os.path.join(ROOT, "crates", c, "src", "main.rt"))]
        self.whole = Copy(path, "whole", [c for c in CRATES if c not in programs], whole_tree)
        self.cited = cited_statements()
        self.definition = [self.tables] if tables_alone else [self.tables, self.statements]

    def copies_for(self, slip):
        """Where a slip is tried. One that changes nothing may break a proof, which tells nothing: it is held to the tables."""
        if slip.sort == "definition":
            return self.definition[:1] if slip.same else self.definition
        return [self.statements] if slip.sort == "statement" and slip.crate not in STATED_OVER_CONTRACTS else [self.whole]

    def kept(self, slip):
        return os.path.join(self.results, slip.name + ".json")

    def of(self, slip, what, by):
        """What a verdict is of: the change, and the sources that it stands with. A table's stands with the definitions and that table, another refusal with
        the definitions and the crate that refuses; that nothing refuses stands with all that was tried."""
        if what == NOTHING:
            return [repr(slip.changes)] + [copy.digest for copy in self.copies_for(slip)]
        files = [refuser.split(":")[0] for refuser in by if refuser.startswith("crates/")]
        if what != TABLE:
            files = [f"crates/{crate_of(change.file)}/**/*" for change in slip.changes] + [f"crates/{crate_of(file)}/**/*" for file in files]
        return [repr(slip.changes), digest_of(ROOT, "crates/*/specs/*.antt", *dict.fromkeys(files))]

    def found_before(self, slip):
        """What an earlier run found of a slip, where that still stands."""
        if not os.path.exists(self.kept(slip)):
            return None
        found = json.loads(read(self.kept(slip)))
        return found if found["of"] == self.of(slip, found["what"], found["by"]) else None

    def tried(self, slip, worker):
        began = time.time()
        for copy in self.copies_for(slip):
            what, by, said = checked(copy, slip, worker, self.cited)
            if what != NOTHING:
                break
        found = {"of": self.of(slip, what, by), "what": what, "by": by, "seconds": round(time.time() - began, 1)}
        write(self.kept(slip), json.dumps(found))
        return found, said


UNTRIED = {"what": NOT_TRIED, "by": []}


def line_of(slip, found):
    by = "; ".join(found["by"])
    return f"{slip.sort:10} {slip.name}  [{slip.says[:110]}]  {found['what']}{': ' + by if by else ''}{'  (changes nothing: ' + slip.same[0] + ')' if slip.same else ''}"


def try_all(room, slips, jobs):
    free, lock = list(range(jobs)), threading.Lock()

    def one(slip):
        found = room.found_before(slip)
        if found is None:
            with lock:
                worker = free.pop()
            try:
                found, _ = room.tried(slip, worker)
            finally:
                with lock:
                    free.append(worker)
            with lock:
                print(f"{found['seconds']:6.1f} s  {line_of(slip, found)}", flush=True)
        return slip, found

    with concurrent.futures.ThreadPoolExecutor(jobs) as pool:
        return list(pool.map(one, slips))


def summary(results):
    """How many slips of each sort and crate were refused by what."""
    columns = [TABLE, THEOREM, LEMMA, FUNCTION, DEFINITION, NOTHING, NOT_TRIED]
    counts = collections.OrderedDict()
    for slip, found in results:
        row = counts.setdefault((slip.sort, slip.crate), collections.Counter())
        row["changes nothing" if slip.same and found["what"] in (LEMMA, NOTHING) else found["what"]] += 1
    columns.append("changes nothing")
    columns = [column for column in columns if any(row[column] for row in counts.values())]
    lines = ["| sort | crate | slips | " + " | ".join(columns) + " |", "|---|---|---:|" + "---:|" * len(columns)]
    for (sort, crate), row in counts.items():
        lines.append(f"| {sort} | {crate} | {sum(row.values())} | " + " | ".join(str(row[c] or "") for c in columns) + " |")
    total = sum(counts.values(), collections.Counter())
    lines.append(f"| all | | {sum(total.values())} | " + " | ".join(str(total[c] or "") for c in columns) + " |")
    return "\n".join(lines)


def recorded(slip):
    """What docs/SLIPS.txt says of a slip, where it is the same slip: a room lasts no longer than the machine's temporary files."""
    begins = line_of(slip, {"what": "", "by": []}).split("]  ")[0] + "]  "
    for line in read(RECORD).split("\n"):
        if line.startswith(begins):
            what, _, by = line[len(begins):].split("  (changes nothing: ")[0].partition(": ")
            return {"what": what, "by": by.split("; ") if by else []}
    return UNTRIED


def record(results):
    lines = ["Every slip of tools/mutants.py, and what refused it. docs/SLIPS.md says how to read it; `python3 tools/mutants.py --record` writes it.", ""]
    lines += [line_of(slip, found) for slip, found in results]
    write(RECORD, "\n".join(lines) + "\n")


def options_given():
    parser = argparse.ArgumentParser(description=__doc__, formatter_class=argparse.RawDescriptionHelpFormatter)
    parser.add_argument("--sort", choices=["definition", "statement", "code"])
    parser.add_argument("--only", choices=list(CRATES))
    parser.add_argument("--like", metavar="TEXT", default="")
    parser.add_argument("--one", metavar="NAME")
    parser.add_argument("--list", action="store_true")
    parser.add_argument("--record", action="store_true")
    parser.add_argument("--anew", action="store_true")
    parser.add_argument("--tables", action="store_true", help="the copy with the tables alone")
    parser.add_argument("--jobs", type=int, default=2)
    parser.add_argument("--room", default=os.path.join(tempfile.gettempdir(), "cedarskein-mutants"))
    return parser.parse_args()


def main():
    options = options_given()
    slips = [s for s in every_slip() if options.sort in (None, s.sort) and options.only in (None, s.crate) and options.one in (None, s.name)
             and options.like in s.name]
    if not slips:
        sys.exit("no such slip")
    if options.list:
        for slip in slips:
            print(f"{slip.sort:10} {slip.name}  [{slip.says[:140]}]")
        print(f"{len(slips)} slips")
        return
    room = Room(options.room, options.tables)
    os.makedirs(room.results, exist_ok=True)
    if options.anew:
        for slip in slips:
            if os.path.exists(room.kept(slip)):
                os.remove(room.kept(slip))
    for copy in dict.fromkeys(copy for slip in slips for copy in room.copies_for(slip)):
        copy.recall() if options.record else copy.fill()
    if options.one:
        found, said = room.tried(slips[0], 0)
        print(said)
        print(line_of(slips[0], found))
        return
    if options.record:
        results = [(slip, room.found_before(slip) or recorded(slip)) for slip in slips]
        record(results)
    else:
        results = try_all(room, slips, options.jobs)
    print()
    print(summary(results))


if __name__ == "__main__":
    main()
