"""Memory that is lent to the library for one call, with guard bytes on both sides."""

from ctypes import addressof, c_uint8

# An odd number, so that no lent part begins where a word does.
GUARD = 33
BEFORE = bytes((7 * i + 0xA5) % 256 for i in range(GUARD))
BEHIND = bytes((11 * i + 0x3C) % 256 for i in range(GUARD))


class InterfaceViolation(Exception):
    """The library wrote where it must not, or gave back what the header does not know."""


class GuardedMemory:
    """One place that is lent again and again."""

    def __init__(self, name, room=512):
        self.name = name
        self.room = room
        self.array = (c_uint8 * (room + 2 * GUARD))()
        self.view = memoryview(self.array).cast("B")
        self.view[:GUARD] = BEFORE
        self.address = addressof(self.array) + GUARD
        self.lent = b""

    def lend(self, data):
        """The address of the data, lent with guard bytes around it."""
        end = GUARD + len(data)
        if len(data) > self.room:
            raise ValueError(f"{len(data)} bytes are more than the room of {self.name}")
        self.view[GUARD:end] = data
        self.view[end : end + GUARD] = BEHIND
        self.lent = data
        return self.address

    def lend_slice(self, data):
        """Address and length. "A pointer with a length may be anything if the length is 0": then it is NULL."""
        address = self.lend(data)
        return address if data else None, len(data)

    def bytes_after(self):
        """The lent bytes after the call."""
        end = GUARD + len(self.lent)
        guards = self.view[:GUARD], self.view[end : end + GUARD]
        if guards != (BEFORE, BEHIND):
            self.view[:GUARD] = BEFORE
            raise InterfaceViolation(f"bytes around the lent {self.name} were written")
        return bytes(self.view[GUARD:end])

    def check_kept(self):
        """Raise if an input was written to."""
        if self.bytes_after() != self.lent:
            raise InterfaceViolation(f"the input {self.name} was written to")
