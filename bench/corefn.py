#!/usr/bin/env python3
"""Measures the program on large files. usage: bench/corefn.py [BINDINGS ..]

Run `./purs compile examples/first/M.purs` first: it proves and builds the program. For files of so many bindings (9000 and
90000) printed are the bytes of the CoreFn text, the processor time and the most memory of the whole run, and that memory
in copies of the text.
"""
import os
import subprocess
import sys
import tempfile

PROGRAM = os.path.join(os.path.dirname(os.path.abspath(__file__)), "..", "crates", "purs", "out", "purs")


def measure(folder, bindings):
    path = os.path.join(folder, "M.purs")
    with open(path, "w") as source:
        source.write("module M where\n")
        source.writelines("value%d = %d\n" % (number, number) for number in range(bindings))
    process = subprocess.Popen([PROGRAM, "compile", path], cwd=folder, stdout=subprocess.DEVNULL)
    _, status, usage = os.wait4(process.pid, 0)
    if status != 0:
        sys.exit("%d bindings: status %d" % (bindings, status))
    text = os.path.getsize(os.path.join(folder, "output", "M", "corefn.json"))
    memory = usage.ru_maxrss * 1024
    seconds = usage.ru_utime + usage.ru_stime
    print("%7d bindings %9d bytes %6.2f s %6.1f MB %4.1f copies" % (bindings, text, seconds, memory / 1e6, memory / text))


def main():
    with tempfile.TemporaryDirectory() as folder:
        for bindings in map(int, sys.argv[1:] or ("9000", "90000")):
            measure(folder, bindings)


main()
