#!/usr/bin/env python3
"""Times the solver on large sets of equations. usage: bench/solver.py

Run `rt run` in crates/solver_speed first: it proves and builds the program. Printed is for each case the time that the program's
own process takes of one core, best of five, in milliseconds; 100 is the most that is wanted.
"""
import os
import resource
import subprocess

HERE = os.path.dirname(os.path.abspath(__file__))
PROGRAM = os.path.join(HERE, "..", "crates", "solver_speed", "out", "solver_speed")


def run(case):
    """The name of a case and its seconds. No name past the last case."""
    before = resource.getrusage(resource.RUSAGE_CHILDREN)
    text = subprocess.run([PROGRAM, str(case)], check=True, capture_output=True, text=True).stdout
    after = resource.getrusage(resource.RUSAGE_CHILDREN)
    took = after.ru_utime + after.ru_stime - before.ru_utime - before.ru_stime
    return text.partition(": ")[2].strip(), took


def main():
    case = 0
    while True:
        runs = [run(case) for _ in range(5)]
        name = runs[0][0]
        if not name:
            return
        print(f"{1000 * min(took for _, took in runs):7.0f} ms  {name}")
        case += 1


if __name__ == "__main__":
    main()
