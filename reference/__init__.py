"""A second implementation of the Provider's rules, written from document 01 alone, and random events for it."""
