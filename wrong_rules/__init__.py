"""Copies of the second program with one wrong rule each, to see that the tests tell them from the right one."""
