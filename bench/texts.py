#!/usr/bin/env python3
"""Measures the texts of a large module. usage: bench/texts.py [MEGABYTES]

Run `rt run` in crates/text_speed first: it proves and builds the program. For the CoreFn and the JavaScript of a module
with a text of so many megabytes (20) and of a tenth of it, printed are the text's bytes, the time that it took, the
most memory that the process had with the module's tree alone and with the text too, and the difference in copies of
the text. For JavaScript the second line has its tree without the text. Best of three.
"""
import os
import subprocess
import sys

HERE = os.path.dirname(os.path.abspath(__file__))
PROGRAM = os.path.join(HERE, "..", "crates", "text_speed", "out", "text_speed")


def once(made, count):
    """The bytes that were made, the seconds that it took, and the most memory of the process in bytes."""
    process = subprocess.Popen([PROGRAM, made, str(count)], stdout=subprocess.PIPE, text=True)
    words = process.stdout.read().split()
    _, status, usage = os.wait4(process.pid, 0)
    if status != 0:
        sys.exit("%s %d: status %d" % (made, count, status))
    return int(words[4]), int(words[5]) / 1e6, usage.ru_maxrss * 1024


def best(made, count):
    runs = [once(made, count) for _ in range(3)]
    return runs[0][0], min(run[1] for run in runs), min(run[2] for run in runs)


def show(made, count):
    bytes_, seconds, memory = best(made, count)
    _, _, tree = best("tree", count)
    line = "%-7s %7d declarations %9d bytes %7.3f s" % (made, count, bytes_, seconds)
    line += ", with the tree %6.1f MB, in all %6.1f MB" % (tree / 1e6, memory / 1e6)
    if bytes_ > 0:
        line += ", %4.1f copies, %5.1f MB/s" % ((memory - tree) / bytes_, bytes_ / 1e6 / seconds)
    print(line)


def main():
    size = int(float(sys.argv[1]) * 1_000_000) if len(sys.argv) > 1 else 20_000_000
    for made, parts in (("corefn", ()), ("js", ("js-tree",))):
        bytes_of_one = once(made, 10_000)[0] / 10_000
        for wanted in (size // 10, size):
            count = int(wanted / bytes_of_one)
            for part in (made, *parts):
                show(part, count)


main()
