"""The C compiler."""

import os
import shlex
import subprocess

from .setup_error import SetupError


def compile_c(*arguments):
    """Run the C compiler; what it says if it fails is told."""
    command = [*shlex.split(os.environ.get("CC", "cc")), *map(str, arguments)]
    try:
        done = subprocess.run(command, capture_output=True, text=True)
    except FileNotFoundError:
        raise SetupError(f"there is no C compiler `{command[0]}`; CC names another one") from None
    if done.returncode:
        raise SetupError(f"{shlex.join(command)} failed:\n{done.stderr}")
