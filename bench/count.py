"""Instructions per call, counted by the emulator: it logs every instruction, with the function that it stands in."""
import collections
import os
import subprocess
import tempfile

FEW, MANY = 10, 110
BY_FUNCTION = '/^Trace/ { count[$NF]++ } END { for (name in count) print count[name], name }'


def traced(program, side, row, calls):
    """Instructions by function of a whole run. The log is a file, since a pipe costs a switch at every line."""
    with tempfile.NamedTemporaryFile(dir=os.path.dirname(program)) as log:
        subprocess.run(["qemu-x86_64", "-singlestep", "-d", "nochain,exec", "-D", log.name,
                        program, "count", side, row, str(calls)], check=True)
        lines = subprocess.run(["awk", BY_FUNCTION, log.name], check=True, stdout=subprocess.PIPE, text=True).stdout
    return collections.Counter({name: int(count) for count, name in map(str.split, lines.splitlines())})


def per_call(program, side, row):
    """Instructions of one call by function: what a hundred more calls add, the calling loop included."""
    added = traced(program, side, row, MANY)
    added.subtract(traced(program, side, row, FEW))
    return collections.Counter({name: count / (MANY - FEW) for name, count in added.items() if count != 0})


def of_call_alone(program, side, row):
    """The same without the calling loop, whose cost is that of a call which does nothing."""
    cost = per_call(program, side, row)
    cost.subtract(per_call(program, "empty", row))
    return cost
