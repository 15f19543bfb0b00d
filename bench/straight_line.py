#!/usr/bin/env python3
"""Times ./actx run on straight-line programs of 64 KiB to 1 MiB, and says how the time per byte grows.

  bench/straight_line.py [PROGRAM]        PROGRAM is crates/actx/out/actx where none is given

Two kinds: many printed lines, and many names that are all used. For each size: the best of three wall times, the
peak memory, and the time per byte; last, by how much the time per byte grows from the smallest size to the largest."""
import os, resource, subprocess, sys, tempfile, time

SIZES = (65_536, 262_144, 1_048_576)


def printed(size):
    lines, length, k = [], 0, 0
    while True:
        line = f"console.log({k % 97} + 2 * 3);\n"
        if length + len(line) > size:
            return "".join(lines)
        lines.append(line)
        length += len(line)
        k += 1


def names(size):
    text, count = "", 0
    while len(text) < size:
        count += max(1, (size - len(text)) // 60)
        last, text = text, named(count)
    return text if len(text) <= size else last


def named(count):
    made = "".join(f"const name{k} = {k % 89} + 1;\n" for k in range(count))
    return made + "".join(f"console.log(name{k});\n" for k in range(count))


def measured(program, path):
    before = time.monotonic()
    child = subprocess.Popen([program, "run", path], stdout=subprocess.DEVNULL)
    _, status, usage = os.wait4(child.pid, 0)
    return time.monotonic() - before, usage.ru_maxrss, os.waitstatus_to_exitcode(status)


def main():
    program = os.path.abspath(sys.argv[1] if len(sys.argv) > 1 else os.path.join(os.path.dirname(__file__), "../crates/actx/out/actx"))
    bad = 0
    with tempfile.TemporaryDirectory() as folder:
        for kind, make in (("printed lines", printed), ("names", names)):
            rates = []
            for size in SIZES:
                text = make(size)
                path = os.path.join(folder, "a.js")
                with open(path, "w", encoding="ascii") as file:
                    file.write(text)
                runs = [measured(program, path) for _ in range(3)]
                seconds, memory, status = min(runs)
                rates.append(seconds / len(text))
                bad += status != 0
                print(f"{kind}: {len(text)} bytes, {text.count(chr(10))} statements: {seconds:.3f} s, {memory // 1024} MiB, {1e9 * rates[-1]:.0f} ns a byte, status {status}")
            print(f"{kind}: the time per byte grows by {100 * (rates[-1] / rates[0] - 1):.0f} % from {SIZES[0]} to {SIZES[-1]} bytes")
    return 1 if bad else 0


if __name__ == "__main__":
    sys.exit(main())
