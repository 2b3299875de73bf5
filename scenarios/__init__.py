"""Scenarios in plain text, run on the built library and on the second program."""
