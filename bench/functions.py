#!/usr/bin/env python3
"""Times ./actx run on programs with functions and variables, and says how time and memory grow with their work.

  bench/functions.py [PROGRAM]        PROGRAM is crates/actx/out/actx where none is given

An endless recursion with and without a parameter (all 20,000,000 steps, status 5, under 10 s and 2 GiB); arrows nested to
the limit of depth; closures that are made and called, up to 20,000; calls of `get` under nested `run`, up to 50,000
(each in under 2 s). A program of the last two kinds calls functions that call functions, since the language has no loop."""
import os, subprocess, sys, tempfile, time


def powers(name, body, times):
    """Constants of functions where calling the last one runs the body so many times, by doubling."""
    lines, k = [f"const {name}0 = () => {{ {body} }};"], 0
    parts = [(1, f"{name}0")]
    while 2 ** (k + 1) <= times:
        lines.append(f"const {name}{k + 1} = () => {{ {name}{k}(); {name}{k}(); }};")
        k += 1
        parts.append((2 ** k, f"{name}{k}"))
    calls = []
    for count, function in reversed(parts):
        if times >= count:
            times -= count
            calls.append(f"{function}();")
    return "\n".join(lines), " ".join(calls)


def closures(count):
    made = "".join(f"const f{k} = x => x + {k % 97};\n" for k in range(count))
    return made + "".join(f"f{k}(1);\n" for k in range(count))


def gets(count):
    made, calls = powers("g", "v.get();", count)
    nested = calls
    for k in range(20):
        nested = f"v.run({k}, () => {{ {nested} }});"
    return f"const v = new AsyncContext.Variable();\n{made}\n{nested}\n"


def nested(depth):
    return "const f = " + "() => " * depth + "1;\nconsole.log(f);\n"


def measured(program, path):
    before = time.monotonic()
    child = subprocess.Popen([program, "run", path], stdout=subprocess.DEVNULL, stderr=subprocess.DEVNULL)
    _, status, usage = os.wait4(child.pid, 0)
    return time.monotonic() - before, usage.ru_maxrss / 1024, os.waitstatus_to_exitcode(status)


CASES = (
    ("endless recursion", "const f = () => f(); f();", 0, 5, 10),
    ("endless recursion with a parameter", "const f = x => f(x); f(1);", 0, 5, 10),
    ("endless recursion under run", "const v = new AsyncContext.Variable(); const f = x => v.run(x, f, x); f(1);", 0, 5, 10),
    ("arrows nested to the limit", nested(99), 0, 0, 2),
    *((f"{n} closures", closures(n), n, 0, 2) for n in (5_000, 10_000, 20_000)),
    *((f"{n} calls of get under 20 runs", gets(n), n, 0, 2) for n in (12_500, 25_000, 50_000)),
)


def main():
    program = os.path.abspath(sys.argv[1] if len(sys.argv) > 1 else os.path.join(os.path.dirname(__file__), "../crates/actx/out/actx"))
    bad = 0
    with tempfile.TemporaryDirectory() as folder:
        path = os.path.join(folder, "a.js")
        for name, text, count, wanted, limit in CASES:
            with open(path, "w", encoding="ascii") as file:
                file.write(text)
            seconds, memory, status = min(measured(program, path) for _ in range(3))
            fits = status == wanted and seconds < limit and memory < 2048
            bad += not fits
            rate = f", {1e9 * seconds / count:.0f} ns each" if count else ""
            print(f"{name}: {seconds:.3f} s, {memory:.0f} MiB, status {status}{rate}{'' if fits else '  <- outside its limits'}")
    return 1 if bad else 0


if __name__ == "__main__":
    sys.exit(main())
