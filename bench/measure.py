"""What the benchmarks bench/run, bench/events and bench/replay share: commands that must succeed, and the instructions that callgrind
counts.

It measures nothing by itself.
"""
import argparse
import collections
import pathlib
import re
import shutil
import subprocess
import sys

ROOT = pathlib.Path(__file__).resolve().parent.parent
FOLDER = ROOT / "target" / "bench"

# Turns of the two counted runs: start-up cancels in their difference.
FEW, MANY = 10, 510


def install_missing():
    missing = [tool for tool in ("valgrind", "time") if not shutil.which(tool)]
    if not pathlib.Path("/usr/include/bearssl.h").exists():
        missing.append("libbearssl-dev")
    if missing:
        run(["apt-get", "update"])
        run(["apt-get", "install", "-y", *missing])


# The program of bench/NAME.c, linked with one of our archives and with BearSSL's.
def compiled(name, archive):
    if not archive.exists():
        sys.exit(f"{archive.relative_to(ROOT)} is not there")
    FOLDER.mkdir(parents=True, exist_ok=True)
    program = FOLDER / name
    flags = ["-std=c11", "-O2", "-Wall", "-Wextra", "-Werror"]
    run(["cc", *flags, "-o", program, ROOT / "bench" / f"{name}.c", archive, "-l:libbearssl.a"])
    return program


# What one turn costs: all of it under "", and under (caller, called) the calls of a function with all that it calls.
def per_turn(command):
    few, many = (collected([*command, str(count)]) for count in (FEW, MANY))
    return {name: (many[name] - few[name]) / (MANY - FEW) for name in many}


# The instructions of a whole run, from callgrind's file.
def collected(command, stdin=None):
    file = FOLDER / "callgrind.out"
    run(["valgrind", "--tool=callgrind", f"--callgrind-out-file={file}", *command], stdin)
    lines = file.read_text().split("\n")
    costs = inclusive(lines)
    costs[""] = int(next(line for line in lines if line.startswith("totals:")).split()[1])
    return costs


# Callgrind names a function ("fn=(number) name", the name only the first time) and below it each that it calls ("cfn=.."), with what
# the calls cost two lines on.
def inclusive(lines):
    names, costs, caller = {}, collections.Counter(), None
    for at, line in enumerate(lines):
        named = re.match(r"(c?)fn=\((\d+)\)(?: (.*))?", line)
        if not named:
            continue
        if named[3]:
            names[named[2]] = named[3]
        if not named[1]:
            caller = names[named[2]]
            continue
        calls = next(i for i in range(at, len(lines)) if lines[i].startswith("calls="))
        costs[caller, names[named[2]]] += int(lines[calls + 1].split()[-1])
    return costs


# What the calls from elsewhere into functions whose names begin with this pattern cost: what these call of their own is in it.
def entered(costs, pattern):
    named = re.compile(pattern).match
    return sum(cost for calls, cost in costs.items() if calls and named(calls[1]) and not named(calls[0]))


def run(command, stdin=None, cwd=ROOT):
    words = [str(word) for word in command]
    if not shutil.which(words[0]):
        sys.exit(f"the command {words[0]} is not there")
    done = subprocess.run(words, cwd=cwd, stdin=stdin, capture_output=True, text=True)
    if done.returncode:
        sys.exit(f"{' '.join(map(str, command))} failed:\n{done.stdout}{done.stderr}")
    return done.stdout


if __name__ == "__main__":
    argparse.ArgumentParser(prog="bench/measure.py", description=__doc__).parse_args()
    sys.exit("nothing to run here: bench/run, bench/events and bench/replay are the benchmarks")
