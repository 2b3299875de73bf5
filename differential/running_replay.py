"""The program fp_replay while it waits for parts of a recording."""

import contextlib
import fcntl
import os
import pathlib
import signal
import socket
import struct
import subprocess
import termios
import time

# A run takes milliseconds; after so long the program hangs.
SECONDS = 60
# As SO_RCVTIMEO has it: seconds and microseconds.
LONG_WAIT = struct.pack("ll", 10 * SECONDS, 0)
# States of a process: it sleeps, is stopped, or has ended.
SLEEPS, STOPPED, ENDED = "S", "T", "Z"


class Hangs(Exception):
    """The program does not come to where it waits for the next part."""


class RunningReplay:
    """Its standard input is a socket, on which each read gives one part at most; its standard output is a pipe."""

    def __init__(self, path):
        self.ours, theirs = socket.socketpair(socket.AF_UNIX, socket.SOCK_SEQPACKET)
        # With a time limit on the socket, a read that is stopped and continued fails with EINTR (signal(7)).
        theirs.setsockopt(socket.SOL_SOCKET, socket.SO_RCVTIMEO, LONG_WAIT)
        self.process = subprocess.Popen([path], stdin=theirs, stdout=subprocess.PIPE, stderr=subprocess.PIPE)
        theirs.close()
        os.set_blocking(self.process.stdout.fileno(), False)

    def __enter__(self):
        return self

    def __exit__(self, *error):
        self.ours.close()
        self.process.kill()
        self.process.communicate()

    def send(self, part):
        """Hand the part over, and wait until the program has read it and waits for the next."""
        # A program that ends early shows in what it printed.
        with contextlib.suppress(BrokenPipeError, ConnectionResetError):
            self.ours.send(part)
        self.wait_for(self.waits)

    def waits(self):
        """Whether it has taken every part, and then sleeps or has ended."""
        return self.state() == ENDED or (self.unread() == 0 and self.state() == SLEEPS)

    def unread(self):
        """How many bytes it has not taken."""
        return struct.unpack("i", fcntl.ioctl(self.ours, termios.TIOCOUTQ, bytes(4)))[0]

    def state(self):
        """The letter of its state; the program's name before it stands in brackets."""
        if self.process.poll() is not None:
            return ENDED
        return pathlib.Path(f"/proc/{self.process.pid}/stat").read_text().rpartition(")")[2].split()[0]

    def wait_for(self, reached):
        end = time.monotonic() + SECONDS
        while not reached():
            if time.monotonic() > end:
                raise Hangs(f"state {self.state()}, {self.unread()} bytes not read")
            time.sleep(0.0002)

    def interrupt(self):
        """Stop it while it waits, and let it go on."""
        self.wait_for(self.waits)
        self.process.send_signal(signal.SIGSTOP)
        self.wait_for(lambda: self.state() in (STOPPED, ENDED))
        self.process.send_signal(signal.SIGCONT)
        self.wait_for(self.waits)

    def printed(self):
        """What stands on standard output now, and was not asked for before."""
        return (self.process.stdout.read() or b"").decode()

    def end(self):
        """No part comes any more: what is left on standard output, then standard error and the exit code."""
        self.ours.close()
        os.set_blocking(self.process.stdout.fileno(), True)
        out, error = self.process.communicate(timeout=SECONDS)
        return out.decode(), error.decode(), self.process.returncode
