"""Memory that is lent at the limit of what is mapped: a read past the lent bytes ends the process."""

import mmap
from ctypes import CDLL, addressof, c_int, c_size_t, c_uint8, c_void_p, get_errno
from os import strerror

from .guarded_memory import InterfaceViolation

PAGE = mmap.PAGESIZE
NO_ACCESS = 0


class MappedMemory:
    """One place that is lent again and again; before and behind it stands a page that nothing may read."""

    def __init__(self, name, room):
        self.name = name
        self.room = -(-room // PAGE) * PAGE
        self.map = mmap.mmap(-1, self.room + 2 * PAGE)
        self.view = memoryview(self.map)[PAGE : PAGE + self.room]
        self.begin = addressof(c_uint8.from_buffer(self.map)) + PAGE
        for page in (self.begin - PAGE, self.begin + self.room):
            forbid(page)
        self.at_end = False
        self.place = 0
        self.lent = b""

    def lend_slice(self, data):
        """Address and length. "A pointer with a length may be anything if the length is 0": then it is NULL."""
        # The part of the call before is still there.
        if data is not self.lent:
            self.put(data)
        return self.begin + self.place if data else None, len(data)

    def put(self, data):
        """At the end of the room, and the next time at its beginning."""
        if len(data) > self.room:
            raise ValueError(f"{len(data)} bytes are more than the room of {self.name}")
        self.at_end = not self.at_end
        self.place = self.room - len(data) if self.at_end else 0
        self.view[self.place : self.place + len(data)] = data
        self.lent = data

    def check_kept(self):
        """Raise if the lent bytes were written to."""
        if self.view[self.place : self.place + len(self.lent)] != self.lent:
            self.lent = b""
            raise InterfaceViolation(f"the {self.name} was written to")


def forbid(address):
    """Nothing may read or write this page."""
    protect = CDLL(None, use_errno=True).mprotect
    protect.argtypes = c_void_p, c_size_t, c_int
    if protect(address, PAGE, NO_ACCESS):
        raise OSError(get_errno(), strerror(get_errno()))
