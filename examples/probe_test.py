#!/usr/bin/env python3
"""Hands recordings to examples/probe.c in parts, by a pipe and by a socket, and compares its lines with those of fp_replay.

Each part is read before the next is sent, so the recording is divided where it is meant to be. The line of a record has to come
before any later part is sent. Exit 1 if a line is another, 142 if one does not come.
"""
import argparse
import fcntl
import os
import pathlib
import signal
import socket
import subprocess
import sys
import tempfile
import termios
import time

PART_SIZES = (1, 7, 4096)
SECONDS = 60

# A record of 1,025 bytes after its length field: one marker.
TOO_LONG = b"\x04\x01" + bytes(1025)


def arguments():
    parser = argparse.ArgumentParser(prog="examples/probe_test.py", description=__doc__)
    parser.add_argument("probe", help="the built program")
    parser.add_argument("replay", help="the built fp_replay")
    parser.add_argument("recording", type=pathlib.Path)
    return parser.parse_args()


def main():
    options = arguments()
    whole = options.recording.read_bytes()
    signal.alarm(SECONDS)  # a line that does not come would be waited for without end
    compare(options, "the recording", whole)
    compare(options, "the recording without its last byte", whole[:-1])
    compare(options, "a record that is too long, and the recording", TOO_LONG + whole)
    compare(options, "the recording, and a record that is too long and cut", whole + TOO_LONG[:-1])
    compare(options, "no byte", b"")


def compare(options, name, recording):
    expected = subprocess.run([options.replay], input=recording, stdout=subprocess.PIPE, check=True).stdout
    for size in PART_SIZES:
        for way in (by_pipe, by_socket):
            shown = way(options.probe, recording, size)
            if shown != expected:
                sys.exit(f"probe_test: {name}, {way.__name__} in parts of {size}: probe prints\n{shown.decode()}and fp_replay\n{expected.decode()}")
    print(f"ok     {name}: {expected.count(10)} lines, by pipe and by socket, in parts of {', '.join(map(str, PART_SIZES))}")


def by_pipe(probe, recording, size):
    with subprocess.Popen([probe], stdin=subprocess.PIPE, stdout=subprocess.PIPE) as running:
        shown = fed(running, recording, size, running.stdin.fileno(), termios.FIONREAD)
        running.stdin.close()
        return shown + last_lines(running)


def by_socket(probe, recording, size):
    with tempfile.TemporaryDirectory() as folder, socket.socket(socket.AF_UNIX) as listener:
        path = os.path.join(folder, "socket")
        listener.bind(path)
        listener.listen()
        with subprocess.Popen([probe, path], stdout=subprocess.PIPE) as running:
            with listener.accept()[0] as connection:
                shown = fed(running, recording, size, connection.fileno(), termios.TIOCOUTQ)
            return shown + last_lines(running)


# The lines that come while the recording is sent. `request` asks the kernel how much of it was not read yet.
def fed(running, recording, size, descriptor, request):
    ends, shown = record_ends(recording), b""
    for at in range(0, len(recording), size):
        os.write(descriptor, recording[at : at + size])
        while fcntl.ioctl(descriptor, request, bytes(4)) != bytes(4):
            time.sleep(0)
        while ends and ends[0] <= at + size:
            shown += running.stdout.readline()
            ends.pop(0)
    return shown


def record_ends(recording):
    ends, at = [], 0
    while at + 2 <= len(recording):
        at += 2 + int.from_bytes(recording[at : at + 2], "big")
        ends.append(at)
    return [end for end in ends if end <= len(recording)]


def last_lines(running):
    lines = running.stdout.read()
    if running.wait() != 0:
        sys.exit("probe_test: probe failed")
    return lines


if __name__ == "__main__":
    main()
