#!/usr/bin/env python3
"""Runs a desk whose input, output, both or none are a terminal, feeds it some lines, and prints what it printed.

    terminal.py both|input|output|none DESK
"""
import os
import pty
import subprocess
import sys
import termios

LINES = b"open 2\n+ 0 1\nfly\n"
END_OF_INPUT = b"\x04"


def raw_terminal():
    """A terminal that does not echo what is typed and does not change what is printed."""
    outer, inner = pty.openpty()
    modes = termios.tcgetattr(inner)
    modes[1] &= ~termios.OPOST
    modes[3] &= ~termios.ECHO
    termios.tcsetattr(inner, termios.TCSANOW, modes)
    return outer, inner


def read_all(outer):
    """What was printed, up to the end: reading a terminal that nobody has open any more fails."""
    text = b""
    try:
        while part := os.read(outer, 4096):
            text += part
    except OSError:
        pass
    return text


def main(which, desk):
    outer, inner = raw_terminal()
    typed = which in ("both", "input")
    shown = which in ("both", "output")
    child = subprocess.Popen(
        [desk],
        stdin=inner if typed else subprocess.PIPE,
        stdout=inner if shown else subprocess.PIPE,
    )
    os.close(inner)
    if typed:
        os.write(outer, LINES + END_OF_INPUT)
    else:
        child.stdin.write(LINES)
        child.stdin.close()
    printed = read_all(outer) if shown else child.stdout.read()
    sys.stdout.buffer.write(printed)
    return child.wait()


if __name__ == "__main__":
    sys.exit(main(*sys.argv[1:]))
