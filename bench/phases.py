#!/usr/bin/env python3
"""Times phases of modules that it makes. usage: bench/phases.py PROGRAM [LINES]

PROGRAM is name_speed, which resolves names, or plain_speed, which makes plain forms. Run `rt run` in crates/PROGRAM first:
it proves and builds the program. Printed are, for each shape, the seconds that the phase takes at the number of declaration lines given
(100,000) and at a tenth of it, how many times as long ten times the lines take, and the most memory of the
process, which holds the source, the tree as written and what is made of it. Times are the program's own, best of five.
"""
import os
import resource
import subprocess
import sys
import tempfile

HERE = os.path.dirname(os.path.abspath(__file__))


def values(lines):
    """Small values, each of which mentions the one before it."""
    yield "v0 = 0"
    for n in range(1, lines):
        yield f"v{n} = v{n - 1}"


def functions(lines):
    """Signatures, clauses, constructors and locals, five lines a part."""
    yield "data L a = N | C a (L a)"
    for n in range(lines // 5):
        yield f"f{n} :: forall a. L a -> L a -> L a"
        yield f"f{n} N y = y"
        yield f"f{n} (C x xs) y = g x"
        yield "  where"
        yield f"  g z = C z (f{max(n - 1, 0)} xs y)"


def types(lines):
    """Types that mention one another."""
    yield "data T0 = A0"
    for n in range(1, lines):
        yield f"data T{n} = A{n} T{n - 1} | B{n} Int"


def statements(lines):
    """One value whose block has a statement for each line."""
    yield "bind f g = g f"
    yield "discard f g = g f"
    yield "x f = do"
    for n in range(lines - 4):
        yield f"  y{n} <- f"
    yield "  f"


def clauses(lines):
    """Clauses with a guard and an if."""
    for n in range(lines):
        yield f"f {n} | true = if true then {n} else {n + 1}"


def bindings(lines):
    """Values with a where of a binder and a binding, four lines a part."""
    for n in range(lines // 4):
        yield f"b{n} q = x"
        yield "  where"
        yield "  { l: x } = q"
        yield "  z = q"


def blocks(lines):
    """Values whose blocks have nine statements, ten lines a part."""
    for n in range(lines // 10):
        yield f"d{n} f = do"
        for k in range(8):
            yield f"  y{k} <- f"
        yield "  f"


SHAPES = {
    "name_speed": [values, functions, types, statements],
    "plain_speed": [values, functions, types, clauses, bindings, blocks],
}


def run(program, shape, lines):
    """The best microseconds of five runs, and the memory of the last in kilobytes."""
    with tempfile.TemporaryDirectory() as folder:
        path = os.path.join(folder, "M.purs")
        with open(path, "w", encoding="utf-8") as file:
            file.write("module M where\n" + "\n".join(shape(lines)) + "\n")
        best = None
        for _ in range(5):
            text = subprocess.run([program, path], check=True, stdout=subprocess.PIPE, text=True).stdout
            took = int(text.split()[-1])
            best = took if best is None else min(best, took)
        return best / 1e6, resource.getrusage(resource.RUSAGE_CHILDREN).ru_maxrss


def main():
    if len(sys.argv) < 2 or sys.argv[1] not in SHAPES:
        sys.exit(__doc__)
    name = sys.argv[1]
    program = os.path.join(HERE, "..", "crates", name, "out", name)
    lines = int(sys.argv[2]) if len(sys.argv) > 2 else 100_000
    for shape in SHAPES[name]:
        small, _ = run(program, shape, lines // 10)
        large, memory = run(program, shape, lines)
        print(
            "%-10s %7d lines %6.3f s, %7d lines %6.3f s, %4.1f times, %5d MB at most so far"
            % (shape.__name__, lines // 10, small, lines, large, large / small, memory // 1024)
        )


if __name__ == "__main__":
    main()
