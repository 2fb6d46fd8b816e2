#!/usr/bin/env python3
"""Times the front of the compiler on sources that it makes. usage: bench/front.py [MEGABYTES]

Run `rt run` in crates/front_speed first: it proves and builds the program. Printed are, for ordinary source, megabytes a
second, and for each shape the time at the size given (1 MB) and at a tenth of it, and how many times as long ten times the bytes take;
12 times is the most that is wanted. All is on one core, by the time that the program's own process takes of it, best of five.
"""
import os
import resource
import subprocess
import sys
import tempfile

HERE = os.path.dirname(os.path.abspath(__file__))
PROGRAM = os.path.join(HERE, "..", "crates", "front_speed", "out", "front_speed")
EXAMPLES = os.path.join(HERE, "..", "examples", "modules")


def bodies():
    """The declarations of the examples, without module lines and imports."""
    text = []
    for name in sorted(os.listdir(EXAMPLES)):
        in_body = False
        for line in open(os.path.join(EXAMPLES, name), encoding="utf-8"):
            if not in_body:
                in_body = line.rstrip().endswith("where")
            elif not line.startswith("import"):
                text.append(line)
    return "".join(text)


def repeated(part, size):
    return part * (size // len(part.encode()))


SHAPES = {
    "ordinary source": lambda n: "module M where\n" + repeated(bodies(), n),
    "open parentheses": lambda n: "module M where\nx = " + "(" * n,
    "closers without a partner": lambda n: "module M where\nx = (" + "]" * n,
    "nested do": lambda n: "module M where\nx = " + repeated("do ", n),
    "one operator chain": lambda n: "module M where\nx = a" + repeated(" + a", n),
    "comments without an end": lambda n: "module M where\nx = " + repeated("{-", n),
    "one line comment": lambda n: "module M where\nx = a --" + "a" * n,
    "small declarations": lambda n: "module M where\n" + repeated("x = 1234\n", n),
}


def seconds(path, phase):
    best = None
    for _ in range(5):
        before = resource.getrusage(resource.RUSAGE_CHILDREN)
        subprocess.run([PROGRAM, phase, path], check=True, stdout=subprocess.DEVNULL)
        after = resource.getrusage(resource.RUSAGE_CHILDREN)
        took = after.ru_utime + after.ru_stime - before.ru_utime - before.ru_stime
        best = took if best is None else min(best, took)
    return best


def time_of(shape, size, phase):
    with tempfile.TemporaryDirectory() as folder:
        path = os.path.join(folder, "M.purs")
        source = shape(size)
        with open(path, "w", encoding="utf-8") as file:
            file.write(source)
        return len(source.encode()), seconds(path, phase)


def main():
    size = int(float(sys.argv[1]) * 1_000_000) if len(sys.argv) > 1 else 1_000_000
    for phase in ("lex", "parse"):
        for name, shape in SHAPES.items():
            small_bytes, small = time_of(shape, size // 10, phase)
            bytes_, large = time_of(shape, size, phase)
            times = 10 * (large / bytes_) / (small / small_bytes)
            print(
                "%-6s %-26s %8d bytes %6.3f s, %8d bytes %6.3f s, %4.1f times, %5.1f MB/s"
                % (phase, name, small_bytes, small, bytes_, large, times, bytes_ / 1e6 / large)
            )


main()
