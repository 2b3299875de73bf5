#!/usr/bin/env python3
"""Brings the repository's own definitions and lemmas to snake case, as the port to the present Rattle asks for it.

usage: python3 tools/respell.py          at the top of the repository, once, on what the kit's port.py left
       python3 tools/respell.py --list   prints the names, old and new, and writes nothing

A name is turned where it is declared in specs/ or proofs/ (top level, or a field of a record); goals and invariants of a function's own
proof keep the names that the check gives them, and so do types, modules, constructors, functions of src/ and exported names. A lemma that
would fall together with a definition gets `_lem`. The same names are turned in documents (within backquotes) and in must-fail edits.
"""

import pathlib
import re
import sys

CRATES = pathlib.Path("crates")
OWN_PROOF = ("Proof.antt", "Answers.antt", "Invariants.antt")
TOP = re.compile(r"^(?:(?:abbrev|unfoldable|pub|private|opaque) )*([^\s:(){}]+)(?: \{[^}]*\})? :(?: |$)(.*)")
FIELD = re.compile(r"^\s+pub ([^\s:(){}]+) :(?: |$)")
# one word of antt: whatever stands between blanks, brackets, commas, dots, colons and semicolons
WORD = re.compile(r"[^\s(){}\[\].,;:`\"λ]+")
BACKQUOTED = re.compile(r"`[^`\n]+`")

# The names that port.py turned itself, since a library of the kit had the same spelling, and those of the library: for the documents.
TURNED = (
    "by-field by-way parts-are added-is after-first after-on after-tail again-cut ahead-more all-append all-drop all-known all-replicate "
    "all-set all-take all-three and-byte and-bytes and-left and-right answerOf as-many at-place before-last bitOf block-at block-made "
    "blockOf blocks-end bodyOf by-bit by-bits by-count by-end by-form by-kind by-length by-number by-order by-row by-size by-tests "
    "by-three by-whole byteOf bytes-fit bytes-low bytes-lt bytes-of callsWithin clear-spec comes-back contextOf copy-more countOf "
    "count-held count-long cut-holds cut-left data-of drop-all drop-more dropAt each-at each-set end-is field-is filled-none first-fits "
    "first-on first-walks fold-more found-among found-in getD-tabulate goes-on guardOf held-back held-kept high-byte in-two is-name "
    "is-true isHeld isOf isTaken kept-gives kept-push key-fits keyAt keyOf keys-kept kindOf known-is last-byte left-alone left-is "
    "left-out length-back length-part length-whole lineOf linesFrom link-up list-back list-length list-read listOf low-byte map-more "
    "nameOf never-both nextAt no-flag no-header no-kind no-more no-room none-kept none-left none-more not-flag not-none not-opened "
    "nothing-left nothing-read number-fits number-more number-read numberAt one-byte one-more open-none or-assoc or-left or-right "
    "or-swap other-byte other-length own-bits paste-more placeOf plusIf product-lt put-first read-back read-name read-out read-short "
    "readingOf reads-whole same-end same-keys same-length same-more same-name same-refl same-version second-is seen-next shifted-by "
    "signed-of size-is size-of start-back startAt stores-same tag-of takenOf tells-more textOf then-is to-end to-start to-the-end "
    "too-long too-short two-blocks two-bytes two-runs upTo withNumber without-fewer without-more word-lt word-of words-more "
    "writes-nothing written-as xor-assoc xor-bytes"
).split()

# Lemmas that port.py had turned and that would now fall together with a definition of their crate: the name, and the files that know it.
ALIKE = {
    "is_name": ("names/proofs/Readings.antt", "names/proofs/ValidNames.antt"),
    "by_form": ("replay/proofs/Theorems/Answers.antt",),
    "list_length": ("recording/proofs/OneRecord.antt",),
    "not_opened": ("pairing/proofs/Laws.antt", "pairing/proofs/passkey_checked/Proof.antt", "pairing/proofs/account_key_write/Proof.antt"),
    "too_long": ("recording/proofs/Laws.antt", "recording/proofs/frame/write/Proof.antt"),
}


def snake(name):
    return re.sub(r"(?<=\w)-?([A-Z])", lambda m: "_" + m.group(1).lower(), name).replace("-", "_").replace("get_d", "get_or")


def unlike(name):
    return name[0].islower() and (re.search(r"[A-Z]", name) is not None or "-" in name)


def declared():
    """The names of specs/, and those of proofs/ that are no goal of a function's own proof."""
    specs, lemmas, goals = set(), set(), set()
    for f in sorted(CRATES.glob("*/specs/**/*.antt")) + sorted(CRATES.glob("*/proofs/**/*.antt")):
        own = f.name in OWN_PROOF
        for line in f.read_text().split("\n"):
            top, field = TOP.match(line), FIELD.match(line)
            if top and own and re.search(r"(^|[\s(])(tie|goal|given)\.|statement", top.group(2)):
                goals.add(top.group(1))
            elif top:
                (specs if "specs" in f.parts else lemmas).add(top.group(1))
            elif field:
                (specs if "specs" in f.parts else lemmas).add(field.group(1))
    return specs, lemmas - specs - goals


def renaming():
    specs, lemmas = declared()
    names = {n: snake(n) for n in specs if unlike(n)}
    taken = set(names.values()) | {n for n in specs | lemmas if not unlike(n)}
    for n in sorted(lemmas):
        if unlike(n):
            new = snake(n)
            new = new + "_lem" if new in taken else new
            if new in taken:
                raise SystemExit(f"{n} falls together with another name as {new}")
            taken.add(new)
            names[n] = new
    both = {}
    for old, new in names.items():
        both.setdefault(new, []).append(old)
    for new, olds in both.items():
        if len(olds) > 1:
            raise SystemExit(f"{olds} fall together as {new}")
    return names


def turned(text, names):
    """What stands in a string is an output and stays."""
    parts = re.split(r'("(?:[^"\\]|\\.)*")', text)
    return "".join(p if p.startswith('"') else WORD.sub(lambda m: names.get(m.group(0), m.group(0)), p) for p in parts)


def line_turned(line, names):
    """In a comment a word with a dash may be plain English, so only names in backquotes and words in camel case are turned there."""
    if not re.match(r"\s*(--|//|#)", line):
        return turned(line, names)
    return in_backquotes(turned(line, {old: new for old, new in names.items() if "-" not in old}), names)


def in_backquotes(text, names):
    return BACKQUOTED.sub(lambda m: turned(m.group(0), names), text)


def main(argv):
    names = renaming()
    for lemma, files in ALIKE.items():
        for f in files if not argv else ():
            path = CRATES / f
            path.write_text(re.sub(rf"(?<![\w.-]){lemma}(?![\w-])", lemma + "_lem", path.read_text()))
    if argv == ["--list"]:
        print("\n".join(f"{old} {new}" for old, new in sorted(names.items())))
        return 0
    for f in sorted(CRATES.glob("*/**/*.antt")) + sorted(CRATES.glob("*/src/**/*.rt")) + sorted(CRATES.glob("*/must-fail/*.edit")):
        if "out" not in f.parts:
            f.write_text("\n".join(line_turned(line, names) for line in f.read_text().split("\n")))
    # the name of a kind in a replay's line, which a document may mean
    kinds = set(re.findall(r'ascii "([a-z-]+)"', (CRATES / "replay_text/specs/Text.antt").read_text()))
    of_documents = {old: new for old, new in ({n: snake(n) for n in TURNED} | names).items() if old not in kinds}
    for f in sorted(pathlib.Path(".").glob("*.md")) + sorted(pathlib.Path("docs").glob("**/*.md")):
        f.write_text(in_backquotes(f.read_text(), of_documents))
    print(f"respell: {len(names)} names")
    return 0


if __name__ == "__main__":
    raise SystemExit(main(sys.argv[1:]))
