"""A shared object of the archive, since Python can't load an archive; and the program fp_replay."""

import subprocess

from .c_compiler import compile_c
from .layout import check_layout
from .paths import ARCHIVE, PROGRAM, ROOT, SHARED
from .setup_error import SetupError

# Without --whole-archive the linker would take nothing, since nothing asks for the functions.
WHOLE = ("-Wl,--whole-archive", ARCHIVE, "-Wl,--no-whole-archive")


def build():
    """The path of the shared object, made anew from the archive."""
    if not ARCHIVE.exists():
        raise SetupError(f"{ARCHIVE.relative_to(ROOT)} is not there; `tools/archive` makes it")
    check_layout()
    compile_c("-shared", "-o", SHARED, *WHOLE)
    return SHARED


def build_program():
    """The path of fp_replay, which is built if it is not there or stale."""
    done = subprocess.run([ROOT / "tools" / "replay"], capture_output=True, text=True)
    if done.returncode:
        raise SetupError(f"tools/replay failed:\n{done.stdout}{done.stderr}")
    return PROGRAM
