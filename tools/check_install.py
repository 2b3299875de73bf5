#!/usr/bin/env python3
"""Install the library into a new folder, move it, and build README's programs against the copy, as somebody outside would.

The first program has to print what README says it prints. The second writes a recording, and the installed fp_replay has to show
of it what README says, from standard input and from files, whole and cut; it has to name a file that is not there. pkg-config, the
header and docs/CHANGES.md have to name one version.
"""
import argparse
import os
import pathlib
import re
import subprocess
import sys
import tempfile

ROOT = pathlib.Path(__file__).resolve().parent.parent


def main():
    argparse.ArgumentParser(prog="tools/check_install.py", description=__doc__).parse_args()
    with tempfile.TemporaryDirectory() as folder:
        first, prefix = pathlib.Path(folder) / "first", pathlib.Path(folder) / "moved"
        run([ROOT / "tools" / "install", first])
        first.rename(prefix)
        version = one_version(prefix)
        same("README's program prints", run([built(prefix, "tour", 0)]), block("text", 0))
        check_replay(prefix, run([built(prefix, "recording", 1)], text=False))
    print(f"fastpair {version}: installed, found by pkg-config, and README's programs and the replay print what README says")


def one_version(prefix):
    named = {
        "pkg-config": pkg_config(prefix, "--modversion")[0],
        "include/fastpair.h": first_match(r'^#define FP_VERSION "(.*)"$', "include/fastpair.h"),
        "docs/CHANGES.md": first_match(r"^## (\S+)", "docs/CHANGES.md"),
    }
    if len(set(named.values())) != 1:
        sys.exit(f"check_install: one version was expected: {named}")
    return named["pkg-config"]


# The program of README's C block with that number, built against the copy.
def built(prefix, name, number):
    source, program = prefix / f"{name}.c", prefix / name
    source.write_text(block("c", number))
    flags = pkg_config(prefix, "--cflags", "--libs")
    run(["cc", "-std=c11", "-Wall", "-Wextra", "-Werror", "-o", program, source, *flags])
    return program


# What README says of its recording; of two files, joined; and of a recording without its last byte, whose last record is a marker.
def check_replay(prefix, recording):
    replay, first, rest, shown = prefix / "bin" / "fp_replay", prefix / "first.fp", prefix / "rest.fp", block("text", 1)
    first.write_bytes(recording[:50])
    rest.write_bytes(recording[50:])
    same("fp_replay shows from standard input", run([replay], stdin=recording), shown)
    same("fp_replay shows of two files", run([replay, first, rest]), shown)
    lines = shown.splitlines(keepends=True)
    same("fp_replay shows of a cut recording", run([replay], stdin=recording[:-1]), "".join(lines[:-1]) + f"{len(lines)} marker 0 0\n")
    check_missing(replay, prefix / "missing.fp")


# Its status is 0 all the same: programs in Rattle have none of their own.
def check_missing(replay, missing):
    done = subprocess.run([replay, missing], capture_output=True, text=True)
    if done.stdout or missing.name not in done.stderr:
        sys.exit(f"check_install: of a file that is not there fp_replay shows\n{done.stdout}and says\n{done.stderr}")


def same(what, wrote, expected):
    if wrote != expected:
        sys.exit(f"check_install: {what}\n{wrote}and README says\n{expected}")


# README's block in that language with that number, from 0.
def block(language, number):
    return matches(rf"^```{language}\n(.*?)^```$", "README.md", number + 1, re.DOTALL)[number]


def first_match(pattern, file):
    return matches(pattern, file, 1)[0]


def matches(pattern, file, least, flags=0):
    found = re.findall(pattern, (ROOT / file).read_text(), re.MULTILINE | flags)
    if len(found) < least:
        sys.exit(f"check_install: {file} has fewer than {least} of the form {pattern}")
    return found


def pkg_config(prefix, *words):
    path = {"PKG_CONFIG_PATH": str(prefix / "lib" / "pkgconfig")}
    return run(["pkg-config", *words, "fastpair"], {**os.environ, **path}).split()


# What the command writes. A recording, which it reads or writes, is no text.
def run(command, environment=None, stdin=None, text=True):
    try:
        done = subprocess.run([str(word) for word in command], input=stdin, capture_output=True, env=environment)
    except FileNotFoundError as missing:
        sys.exit(f"check_install: the command {missing.filename} is not there")
    if done.returncode or done.stderr:
        sys.exit(f"check_install: {command[0]} failed\n{done.stdout.decode()}{done.stderr.decode()}")
    return done.stdout.decode() if text else done.stdout


if __name__ == "__main__":
    main()
