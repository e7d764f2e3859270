"""Sets the module of the proved build for another processor: module.py MODULE.ll LIKE.ll OUT.ll.

MODULE.ll is the module as text, as the kit's clang was handed it. LIKE.ll is what that clang makes of an empty C file for the processor: its data layout,
triple and processor are taken from there. OUT.ll is the module with these, and with two things said of it that it leaves out:

- a result of 8 or 16 bits is extended with zeros, as C on the boards' processors expects it; a call's own name, cedarskein_NAME, is left to the shim, and
  the proved function is proved_NAME;
- a pointer that a private function is lent is aligned as all its callers have it. Each caller is in the module, and has the pointer from an `alloca`,
  whose alignment is written there. Without that a processor that loads words only from their own addresses puts every length together byte by byte.

Every line must be of a form that is known here to mean the same on each processor: widths are written out, memory is laid out by bytes, nothing is called
but the module's own functions. Exit status: 0 done; 1 a line has another form, and one line says which: nothing is written."""
import re
import sys

ALLOCA = re.compile(r"  (%r\d+) = alloca (?:ptr|i\d+|\[\d+ x i8\]), align (\d+)")
POINTER_HELD = re.compile(r"  (%r\d+) = alloca ptr, ")
LOADED_OR_STORED = re.compile(r"  (?:%r\d+ = load ptr|store ptr %\w+), ptr (%r\d+), ")
CALL = re.compile(r'  (?:%r\d+ = )?call [\w ]*@("[^"]+"|[\w.]+)\((.*)\)')
DEFINE = re.compile(r'define (internal )?([\w ]*) @("[^"]+"|\w+)\((.*)\) #0 \{')
VALUE = r"(?:%[\w.]+|-?\d+|true|false)"
KIND = r"(?:i1|i8|i16|i32|i64)"
KNOWN = [re.compile(form + r"(?:, !(?:range|noundef) !\d+)*") for form in (
    r"; .*|source_filename = .*|\}|![\w.]+ = !\{.*\}|attributes #\d+ = \{.*\}",
    r"[\w.]+:(?: +; .*)?",
    ALLOCA.pattern, DEFINE.pattern,
    r"  %r\d+ = load (?:ptr|i8|i16|i32|i64), ptr %\w+, align \d+",
    rf"  store (?:ptr %\w+|{KIND} {VALUE}), ptr %\w+, align \d+",
    r"  %r\d+ = getelementptr (?:inbounds nuw )?i8, ptr %\w+, i64 (?:%\w+|\d+)",
    rf"  %r\d+ = (?:zext|trunc|trunc nuw) {KIND} {VALUE} to {KIND}",
    rf"  %r\d+ = icmp \w+ {KIND} {VALUE}, {VALUE}",
    rf"  %r\d+ = (?:add|sub|mul|udiv|urem|and|or|xor|shl|lshr|ashr)(?: nuw| nsw| exact)* {KIND} {VALUE}, {VALUE}",
    r"  br label %[\w.]+|  br i1 %\w+, label %[\w.]+, label %[\w.]+|  unreachable",
    rf"  switch {KIND} {VALUE}, label %[\w.]+ \[|    {KIND} -?\d+, label %[\w.]+|  \]",
    rf"  ret (?:void|{KIND} {VALUE}|ptr %\w+)",
    CALL.pattern,
    r'declare (?:void @llvm\.memmove\.p0\.p0\.i64|i32 @llvm\.ctpop\.i32|void @llvm\.trap)\(.*\) #\d+')]
PROCESSOR = ' "probe-stack"="inline-asm" "target-cpu"="x86-64"'
BUILT_IN = re.compile(r"llvm\.(memmove\.p0\.p0\.i64|ctpop\.i32|trap)")


def fail(text):
    raise SystemExit(f"this kit's module is not laid out as this repository knows it, and no archive for boards is built: {text}")


def only(pattern, text, what):
    """The one place of the text that has the form."""
    found = re.findall(pattern, text, re.MULTILINE)
    if len(found) != 1:
        fail(f"{len(found)} lines have {what}")
    return found[0]


def functions(text):
    """The functions: internal or not, result, name, parameters and the lines of the body, of each."""
    parts = re.split(r"^(?=define )", text, flags=re.MULTILINE)[1:]
    return [DEFINE.match(part).groups() + (part.split("\n}\n")[0].split("\n")[1:],) for part in parts]


def check_forms(text):
    for number, line in enumerate(text.split("\n"), 1):
        if line and not re.match(r"target (datalayout|triple) = ", line) and not any(form.fullmatch(line) for form in KNOWN):
            fail(f"line {number} is: {line.strip()[:100]}")


def check_calls(parts):
    """Nothing is called but the module's own functions and what the compiler has built in."""
    own = {name for _, _, name, _, _ in parts}
    for _, _, name, _, body in parts:
        for line in body:
            called = CALL.match(line)
            if called and called[1] not in own and not BUILT_IN.fullmatch(called[1]):
                fail(f"{name} calls {called[1]}")


def check_held_pointers(parts):
    """A pointer that is held by itself has 8 bytes here and 4 there. It is stored and loaded as a pointer, and its bytes are met by nothing else."""
    for _, _, name, _, body in parts:
        held = {found[1] for found in map(POINTER_HELD.match, body) if found}
        for line in body:
            place = LOADED_OR_STORED.match(line) or POINTER_HELD.match(line)
            if held & set(re.findall(r"%r\d+", line)) - {place[1] if place else None}:
                fail(f"{name} has the place of a pointer in: {line.strip()}")


def parameters(listed):
    return listed.split(", ") if listed else []


def lent_alignment(parts):
    """For each parameter of a private function that is a pointer, the alignment that every caller has for it. It is lowered until no call lowers it."""
    known = {(name, k): 8 if internal else 1 for internal, _, name, listed, _ in parts
             for k, one in enumerate(parameters(listed)) if one.startswith("ptr ")}
    calls = []
    for _, _, name, _, body in parts:
        own = {found[1]: int(found[2]) for found in map(ALLOCA.match, body) if found}
        calls += [(name, own, called[1], parameters(called[2])) for called in map(CALL.match, body) if called]
    for _ in range(1 + len(known)):
        before = dict(known)
        for caller, own, called, given in calls:
            for k, one in enumerate(given):
                if (called, k) in known:
                    place = one.split()[-1]
                    has = known[caller, int(place[2:])] if place.startswith("%a") else own.get(place, 1)
                    known[called, k] = min(known[called, k], has)
        if known == before:
            break
    return known


def defined(known, internal, result, name, listed):
    """A function's first line, with what is said of it besides."""
    if not internal:
        extended = re.sub(r"\b(i8|i16)$", r"zeroext \1", result)
        return f"define {extended} @{re.sub('^cedarskein_', 'proved_', name)}({listed}) #0 {{"
    lent = [one.replace("ptr ", f"ptr align {known[name, k]} ", 1) if known.get((name, k), 1) > 1 else one for k, one in enumerate(parameters(listed))]
    return f"define internal {result} @{name}({', '.join(lent)}) #0 {{"


def set_for(text, like):
    """The module's text for the processor that the other text is for."""
    check_forms(text)
    parts = functions(text)
    check_calls(parts)
    check_held_pointers(parts)
    only(r'^target triple = "x86_64-unknown-linux-gnu"$', text, "the triple of x86-64 Linux")
    only(f"^attributes #0 = .*{re.escape(PROCESSOR)}", text, "the processor")
    for which in ("datalayout", "triple"):
        line = only(rf"^target {which} = .*$", like, f"a target {which}")
        text = text.replace(only(rf"^target {which} = .*$", text, f"a target {which}"), line)
    words = re.findall(r' "target-(?:cpu|features)"="[^"]*"', only(r"^attributes #0 = .*$", like, "attributes"))
    text = text.replace(PROCESSOR, "".join(words))
    known = lent_alignment(parts)
    for internal, result, name, listed, _ in parts:
        text = text.replace(f"define {internal or ''}{result} @{name}({listed}) #0 {{", defined(known, internal, result, name, listed))
    return text


def main(module, like, out):
    with open(module, encoding="utf-8") as file:
        text = file.read()
    with open(like, encoding="utf-8") as file:
        text = set_for(text, file.read())
    with open(out, "w", encoding="utf-8") as file:
        file.write(text)


main(*sys.argv[1:])
