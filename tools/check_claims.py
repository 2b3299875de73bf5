#!/usr/bin/env python3
"""Fail if docs/CLAIMS.md names a file or a definition that is not there.

In docs/CLAIMS.md a text in backticks with a `/` in it is a reference: a path from the repository's
root, as `crates/sha256/specs/Hash.antt`, or such a path with names that the file declares, as
`crates/sha256/specs/Hash.antt: sha256, pad`. Backticked text with no `/` is prose. Names are looked
up in .antt, .rt and .py files. A document with no reference fails too. Each bad line is named, and
the exit code is 1.
"""
import argparse
import pathlib
import re
import sys
import tempfile

ROOT = pathlib.Path(__file__).resolve().parent.parent
CLAIMS = "docs/CLAIMS.md"


def arguments():
    parser = argparse.ArgumentParser(description=__doc__, formatter_class=argparse.RawDescriptionHelpFormatter)
    parser.add_argument(
        "--selftest", action="store_true", help="show that a missing file, a missing name and an empty document fail"
    )
    return parser.parse_args()


def main():
    if arguments().selftest:
        selftest()
    else:
        report(ROOT)


def report(root):
    count, faults = check(root)
    for fault in faults:
        print(fault, file=sys.stderr)
    if faults:
        sys.exit(1)
    print(f"{CLAIMS}: {count} references, each one there")


# The number of references in the document, and a line for each fault.
def check(root):
    document = root / CLAIMS
    if not document.is_file():
        return 0, [f"{CLAIMS}: no such file"]
    count, faults = 0, []
    for number, text in references(document.read_text()):
        count += 1
        faults += [f"{CLAIMS}:{number}: `{text}`: {fault}" for fault in reference_faults(root, text)]
    if count == 0:
        faults.append(f"{CLAIMS}: holds no reference")
    return count, faults


# Each reference of the document with its line's number. What stands in a fenced block is prose.
def references(document):
    fenced = False
    for number, line in enumerate(document.split("\n"), 1):
        if line.lstrip().startswith("```"):
            fenced = not fenced
        elif not fenced:
            for text in re.findall(r"`([^`]+)`", line):
                if "/" in text:
                    yield number, text


def reference_faults(root, text):
    path, colon, names = (part.strip() for part in text.partition(":"))
    file = root / path
    if path.startswith("/") or ".." in path.split("/") or not file.exists():
        return ["no such file"]
    if not colon:
        return []
    if file.suffix not in DECLARED or not file.is_file():
        return ["names are looked up only in " + ", ".join(DECLARED)]
    declared = DECLARED[file.suffix](file.read_text())
    return [f"declares no '{name}'" for name in split_names(names) if name not in declared]


# A colon or a comma with no name is a name that no file declares.
def split_names(names):
    return [name.strip() for name in names.split(",")]


# What stands before the colon of a signature, at the margin or within a data type, a record or a module.
def antt_names(text):
    names, inside = set(), False
    for line in text.split("\n"):
        line = re.sub(r"(^|\s)--.*", "", line)
        if not line.strip():
            continue
        indented = line[0].isspace()
        words = re.sub(r"^(?:(?:pub|abbrev|unfoldable)\s+)+", "", line.strip()).split()
        if not words:
            continue
        if not indented:
            inside = words[0] in ("data", "record", "module")
        if indented and not inside:
            continue
        if words[0] in ("data", "record"):
            names.update(words[1:2])
        elif ":" in words and "=" not in words[: words.index(":")]:
            names.update(words[: words.index(":")])
    return names - {"module"}


def rattle_names(text):
    code = re.sub(r"//.*", "", text)
    return set(re.findall(r"\b(?:fn|struct|enum|const|type)\s+(\w+)", code))


def python_names(text):
    return set(re.findall(r"^\s*(?:def|class)\s+(\w+)", text, re.MULTILINE))


DECLARED = {".antt": antt_names, ".rt": rattle_names, ".py": python_names}

SAMPLE_SPEC = """-- pad : a comment declares nothing
use lib.ListN.{length}

unfoldable pub sha256 : List ℕ → List ℕ
sha256 m =
    record { x = m }
  where
  go : List ℕ → List ℕ
  go m = m

infixr 10 if_then_else_
abbrev pub if_then_else_ : Bool → A → A → A

pub data Marked (A : Type 0) : List A → Type 0 where
  done : Marked A []
  kept : (e : A) → Marked A []
"""

# Each document, and the faults that it must have.
SAMPLES = [
    ("`specs/Hash.antt`, `length` and `a: b` are right", []),
    ("`specs/Hash.antt: sha256, if_then_else_, Marked, kept`", []),
    ("`src/lib.rt: digest, State`", []),
    ("`tools/`", []),
    ("right: `src/lib.rt`\n\nwrong: `specs/Gone.antt`", [":3: `specs/Gone.antt`: no such file"]),
    ("`../outside/specs`", [":1: `../outside/specs`: no such file"]),
    ("`specs/Hash.antt: sha256, pad`", [":1: `specs/Hash.antt: sha256, pad`: declares no 'pad'"]),
    ("`specs/Hash.antt: go`", [":1: `specs/Hash.antt: go`: declares no 'go'"]),
    ("`specs/Hash.antt: {`", [":1: `specs/Hash.antt: {`: declares no '{'"]),
    ("`src/lib.rt: gone`", [":1: `src/lib.rt: gone`: declares no 'gone'"]),
    ("`src/lib.rt:`", [":1: `src/lib.rt:`: declares no ''"]),
    ("`tools/wrong.edit: x`", [":1: `tools/wrong.edit: x`: names are looked up only in .antt, .rt, .py"]),
    ("", [": holds no reference"]),
    ("Only `prose` here.\n```\n`src/lib.rt`\n```", [": holds no reference"]),
]


def selftest():
    with tempfile.TemporaryDirectory() as folder:
        root = pathlib.Path(folder)
        for path, text in {
            "specs/Hash.antt": SAMPLE_SPEC,
            "src/lib.rt": "// fn gone\npub struct State { x: u8 }\npub fn digest() {}\n",
            "tools/wrong.edit": "",
        }.items():
            (root / path).parent.mkdir(exist_ok=True)
            (root / path).write_text(text)
        (root / "docs").mkdir()
        expect(check(root)[1], [": no such file"])
        for document, faults in SAMPLES:
            (root / CLAIMS).write_text(document)
            expect(check(root)[1], faults)
    print(f"check_claims: {len(SAMPLES) + 1} samples, each as it must be")


def expect(found, faults):
    expected = [CLAIMS + fault for fault in faults]
    if found != expected:
        sys.exit(f"check_claims: found {found}, expected {expected}")


if __name__ == "__main__":
    main()
