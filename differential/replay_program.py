"""The program fp_replay, run on a recording that comes by files, by standard input or in small parts."""

import contextlib
import os
import socket
import subprocess
import tempfile
from dataclasses import dataclass

from .running_replay import SECONDS, RunningReplay
from .terminal import end_character, terminal


@dataclass(frozen=True)
class Printed:
    """What a run of the program left: standard output, standard error and the exit code."""

    out: str
    error: str
    code: int


class ReplayProgram:
    """Runs the program."""

    def __init__(self, path):
        self.path = path

    def of_files(self, paths):
        """The files, joined in this order."""
        return self.run(*paths)

    def of_input(self, recording):
        """The recording on standard input, by a pipe."""
        return self.run(input=recording)

    def of_input_file(self, path):
        """A file as standard input."""
        with open(path, "rb") as file:
            return self.run(stdin=file)

    def of_terminal(self, recording):
        """A terminal as standard input; the recording is short and lacks a byte."""
        end = end_character(recording)
        with terminal(end) as (ours, theirs):
            running = subprocess.Popen([self.path], stdin=theirs, stdout=subprocess.PIPE, stderr=subprocess.PIPE)
            # The first one hands over a line that is begun, and the second, behind it, ends the input.
            os.write(ours, recording + end + end)
            out, error = running.communicate(timeout=SECONDS)
            return Printed(out.decode(), error.decode(), running.returncode)

    def part_by_part(self, parts):
        """What it has printed when it waits for the part behind each; and what the run left."""
        with RunningReplay(self.path) as running:
            printed = []
            for part in parts:
                running.send(part)
                printed.append(running.printed())
            out, error, code = running.end()
            return printed, Printed("".join(printed) + out, error, code)

    def interrupted(self, parts):
        """Its read is interrupted before each part and before the end."""
        with RunningReplay(self.path) as running:
            for part in parts:
                running.interrupt()
                running.send(part)
            running.interrupt()
            printed = running.printed()
            out, error, code = running.end()
            return Printed(printed + out, error, code)

    def run(self, *arguments, **options):
        done = subprocess.run([self.path, *arguments], capture_output=True, timeout=SECONDS, **options)
        return Printed(done.stdout.decode(), done.stderr.decode(), done.returncode)

    def of_parts(self, parts):
        """On standard input, where each read gives one part at most; a pipe would join what it holds."""
        ours, theirs = socket.socketpair(socket.AF_UNIX, socket.SOCK_SEQPACKET)
        # Into files, so that the program never waits for us to read while we wait for it.
        with tempfile.TemporaryFile() as out, tempfile.TemporaryFile() as error, ours:
            running = subprocess.Popen([self.path], stdin=theirs, stdout=out, stderr=error)
            theirs.close()
            # A program that ends early shows in what it printed.
            with contextlib.suppress(BrokenPipeError, ConnectionResetError):
                for part in parts:
                    ours.send(part)
            ours.close()
            code = running.wait(timeout=SECONDS)
            return Printed(written(out), written(error), code)


def written(file):
    file.seek(0)
    return file.read().decode()
