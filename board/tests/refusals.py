"""What must stop the making of a board's archive does: refusals.py MODULE.ll LIKE.ll HEADER FOLDER.

Each trial changes the module of the proved build, or the header, in one place, and hands it to module.py or shim.py: the exit status is 1, one line says what
is wrong, and nothing is written. With nothing changed both are taken."""
import os
import re
import subprocess
import sys

BOARD = os.path.dirname(os.path.dirname(os.path.abspath(__file__)))
LEADS = {"module.py": "this kit's module is not laid out as this repository knows it, and no archive for boards is built: ",
         "shim.py": "no archive for boards is built: "}
FIRST_LOAD = "  %r8 = load i64, ptr %r7, align 8, !noundef !1\n"
FIRST_DEFINE = 'define internal noundef i8 @"words::byte_at"('

# What is tried, what is changed into what in the module, once, and what the line has to say.
OF_MODULE = [
    ("a module for another processor", 'triple = "x86_64-unknown-linux-gnu"', 'triple = "aarch64-unknown-linux-gnu"', "the triple of x86-64 Linux"),
    ("no data layout", 'target datalayout = "', '; no layout "', "0 lines have a target datalayout"),
    ("another way to name the processor", '"target-cpu"="x86-64"', '"target-cpu"="x86-64-v3"', "the processor"),
    ("a pointer made a number", FIRST_LOAD, FIRST_LOAD + "  %r9999 = ptrtoint ptr %r1 to i64\n", "ptrtoint"),
    ("a number made a pointer", FIRST_LOAD, FIRST_LOAD + "  %r9999 = inttoptr i64 %a1 to ptr\n", "inttoptr"),
    ("assembly", FIRST_LOAD, FIRST_LOAD + '  call void asm sideeffect "hlt", ""()\n', "asm"),
    ("a place counted in words", "getelementptr i8, ptr", "getelementptr i64, ptr", "getelementptr i64"),
    ("a place in a struct", "getelementptr i8, ptr %r1, i64 8", "getelementptr {ptr, i64}, ptr %r1, i32 0, i32 1", "getelementptr {ptr"),
    ("a struct with a pointer on the stack", "alloca [16 x i8], align 8", "alloca { ptr, i64 }, align 8", "alloca {"),
    ("a number as wide as a pointer of another", FIRST_LOAD, FIRST_LOAD.replace("i64", "i128"), "load i128"),
    ("a float", FIRST_LOAD, FIRST_LOAD + "  %r9999 = fadd double 1.0, 2.0\n", "fadd"),
    ("memory outside", FIRST_DEFINE, "@outside = external global i64\n" + FIRST_DEFINE, "@outside"),
    ("a function of C's", FIRST_LOAD, FIRST_LOAD + "  call void @abort()\n", "calls abort"),
    ("another built-in", FIRST_LOAD, FIRST_LOAD + "  %r9999 = call i64 @llvm.ctpop.i64(i64 %a1)\n", "calls llvm.ctpop.i64"),
    ("the declaration of a function of C's", "declare void @llvm.trap()", "declare void @abort()", "declare void @abort"),
    ("the place of a pointer copied by bytes", FIRST_LOAD,
     FIRST_LOAD + "  call void @llvm.memmove.p0.p0.i64(ptr %r1, ptr %r5, i64 8, i1 false)\n", "has the place of a pointer"),
    ("the place of a pointer stored", FIRST_LOAD, FIRST_LOAD + "  store ptr %r5, ptr %r1, align 8\n", "has the place of a pointer"),
    ("the address of a function", FIRST_LOAD, FIRST_LOAD + '  store ptr @"words::last_word", ptr %r1, align 8\n', "store ptr @"),
    ("a call by a pointer", FIRST_LOAD, FIRST_LOAD + "  call void %r5()\n", "call void %r5"),
]
OF_CALLS = [
    ("a call that the module has not", None, ("uint16_t cedarskein_check_start(void);", "uint16_t cedarskein_check_start(void);\nuint32_t cedarskein_more(void);"),
     "cedarskein_more is in the header alone"),
    ("a call that the header has not", None, ("uint16_t cedarskein_check_start(void);", ""), "cedarskein_check_start is in the module alone"),
    ("another result", None, ("uint16_t cedarskein_check_start(void);", "uint32_t cedarskein_check_start(void);"), "cedarskein_check_start is another"),
    ("a length of fixed width", None, ("cedarskein_sheet_check(const uint8_t *sheet, size_t sheet_n)", "cedarskein_sheet_check(const uint8_t *sheet, uint32_t sheet_n)"),
     "cedarskein_sheet_check is another"),
    ("one parameter less", None, ("cedarskein_sheet_check(const uint8_t *sheet, size_t sheet_n)", "cedarskein_sheet_check(const uint8_t *sheet)"), "cedarskein_sheet_check is another"),
    ("a type that is not handed on", None, ("cedarskein_check_take(uint16_t state, uint8_t byte)", "cedarskein_check_take(uint16_t state, float byte)"), "cannot hand on: float"),
    ("a parameter without a name", None, ("cedarskein_check_take(uint16_t state, uint8_t byte)", "cedarskein_check_take(uint16_t, uint8_t)"), "cannot hand on: uint16_t"),
    ("lengths of 32 bits in the module", ("i32 @cedarskein_sheet_check(ptr noundef %a0, i64 noundef %a1)", "i32 @cedarskein_sheet_check(ptr noundef %a0, i32 noundef %a1)"), None,
     "cedarskein_sheet_check is another"),
]


def text_of(path):
    with open(path, encoding="utf-8") as file:
        return file.read()


def changed(text, change):
    """The text with the first place of one thing made another. A change that finds no place would try nothing."""
    if change is None:
        return text
    if change[0] not in text:
        raise SystemExit(f"FAILED: nothing has the form {change[0]!r} any more, so a trial of refusals.py is none")
    return text.replace(change[0], change[1], 1)


def run(folder, script, texts):
    """The script's exit status and what it said, and whether it wrote its last file."""
    out = os.path.join(folder, "refused.out")
    files = []
    for number, text in enumerate(texts):
        files.append(os.path.join(folder, f"refused_{number}"))
        with open(files[-1], "w", encoding="utf-8") as file:
            file.write(text)
    if os.path.exists(out):
        os.remove(out)
    done = subprocess.run([sys.executable, "-B", os.path.join(BOARD, script), *files, out], capture_output=True, text=True, check=False)
    return done.returncode, done.stderr, os.path.exists(out)


def wrong(script, came, expected):
    """What is wrong with how a trial came out, or nothing. Nothing expected means that it is taken."""
    status, said, written = came
    if expected is None:
        return None if (status, said, written) == (0, "", True) else f"status {status}, {said!r}"
    good = status == 1 and not written and re.fullmatch(re.escape(LEADS[script]) + ".*\n", said) and expected in said
    return None if good else f"status {status}, written {written}, {said!r}"


def trials(module, like, header):
    yield "module.py", "nothing changed", (module, like), None
    yield "shim.py", "nothing changed", (header, module), None
    for name, old, new, expected in OF_MODULE:
        yield "module.py", name, (changed(module, (old, new)), like), expected
    for name, of_module, of_header, expected in OF_CALLS:
        yield "shim.py", name, (changed(header, of_header), changed(module, of_module)), expected


def main(module, like, header, folder):
    tried = failed = 0
    for script, name, texts, expected in trials(*map(text_of, (module, like, header))):
        tried += 1
        fault = wrong(script, run(folder, script, texts), expected)
        if fault:
            failed += 1
            print(f"FAILED: {script}, {name}: {fault}")
    if failed:
        raise SystemExit(1)
    print(f"modules and headers that are not as they should be: {tried - 2} are refused by a line each, and nothing is written; the right ones are taken")


main(*sys.argv[1:])
