"""Where things are."""

import pathlib

ROOT = pathlib.Path(__file__).resolve().parent.parent
HEADER = ROOT / "include" / "fastpair.h"
ARCHIVE = ROOT / "target" / "libfastpair.a"
PROGRAM = ROOT / "target" / "bin" / "fp_replay"
FOLDER = ROOT / "target" / "differential"
SHARED = FOLDER / "libfastpair.so"
