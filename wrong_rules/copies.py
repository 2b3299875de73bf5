"""A copy of reference/rules with a wrong rule, as rules that a side of the scenarios can have."""

import importlib
import pathlib
import re
import sys
from functools import cache

import reference.rules
from scenarios.sides import MODULES, rules_of

RIGHT = pathlib.Path(reference.rules.__file__).parent
IMPORTS = re.compile(r"^from \.(\w*) import (.*)", re.MULTILINE)


def wrong_rules(edit, folder, number):
    """The rules of a copy in this folder, with the edit applied."""
    package = pathlib.Path(folder) / f"wrong_{number}"
    package.mkdir()
    for file in RIGHT.glob("*.py"):
        (package / file.name).write_text(copied(file.stem, edit))
    return imported(package)


def copied(name, edit):
    """The text of a module in the copy; one that does not use the wrong rule is the right one."""
    if name == edit.file:
        return edit.applied(source(name))
    return source(name) if uses(name, edit.file) else f"from reference.rules.{name} import *\n"


@cache
def uses(name, other):
    """Whether a module imports another one, itself or by a third."""
    needed = needed_by(name)
    return other in needed or any(uses(one, other) for one in needed)


@cache
def needed_by(name):
    """The modules that stand in its import lines: "from .device import Stage", "from . import events"."""
    found = IMPORTS.findall(source(name))
    return {one for module, names in found for one in ([module] if module else names.split(", "))}


@cache
def source(name):
    return (RIGHT / f"{name}.py").read_text()


def imported(package):
    sys.path.insert(0, str(package.parent))
    importlib.invalidate_caches()
    try:
        modules = [importlib.import_module(f"{package.name}.{module}") for module in MODULES]
    finally:
        sys.path.remove(str(package.parent))
    return rules_of(*modules)
