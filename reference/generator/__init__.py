"""Seeded random events, and what a run of them has reached."""
