"""The built library beside the reference, event by event."""
