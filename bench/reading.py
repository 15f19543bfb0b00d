#!/usr/bin/env python3
"""Times ./actx lower on texts of the whole grammar: the lexer, the parser, the static rules and, where all forms run, the printer.

  bench/reading.py [PROGRAM]        PROGRAM is crates/actx/out/actx where none is given

Each kind of text comes at 64 KiB, 256 KiB and 1 MiB: mixed statements, deep ones (nests of 190 levels), one object of many
properties, one scope of many names. A text with forms that don't run yet ends as 13 NotYet (status 3), which comes behind
the static rules. Last a program is run whose emitted text is printed and parsed again: it is more than four times as long,
4.3 MiB for the longest. For each: the best of three wall times, the peak memory, the time per byte; and by how much the time
per byte grows. Where node is on the machine, its --check of the same text stands beside it."""
import os, shutil, subprocess, sys, tempfile, time

SIZES = (65_536, 262_144, 1_048_576)
MIXED = """function f{k}(a, b) {{ if (a < b) {{ return a + b * {k}; }} else {{ throw new Error("no {k}"); }} }}
const o{k} = {{ f{k}, g(x) {{ return x.y[0]; }}, "a b": [1].length, }};
for (let i = 0; i < {k}; i++) {{ try {{ f{k}(i, o{k}); }} catch (e) {{ console.log(e.message, i); }} finally {{ f{k}(); }} }}
async function h{k}(x) {{ const y = await x; while (y !== null) {{ await f{k}(y, x); break; }} return y ?? x; }}
function* i{k}() {{ for (const x of i{k}()) {{ yield x; }} yield* i{k}(); }}
"""
MIXED = MIXED.replace("[1].length", "f{k}.length")


def filled(size, piece):
    parts, length, k = [], 0, 0
    while True:
        part = piece(k)
        if length + len(part) > size:
            return "".join(parts)
        parts.append(part)
        length += len(part)
        k += 1


def mixed(size):
    return filled(size, lambda k: MIXED.format(k=k))


def deep(size):
    return filled(size, lambda k: "{" * 90 + "1" + " + (1" * 40 + ")" * 40 + ";" + "}" * 90 + "\n")


def wide_object(size):
    return "const o = {\n" + filled(size - 20, lambda k: f"p{k}:1,\n") + "};\n"


def wide_scope(size):
    names = filled(size * 2 // 3, lambda k: f"let n{k};\n")
    count = names.count("\n")
    return names + filled(size - len(names), lambda k: f"n{k * 7 % count};\n")


def emitted(size):
    head = "const a = 1, b = 2, log = x => x;\nconst f = () => {\n"
    return head + filled(size - len(head) - 3, lambda k: f"log(a+{k % 97}*(b-1),'{chr(1) * 32}',a,b);\n") + "};\n"


def measured(words):
    before = time.monotonic()
    child = subprocess.Popen(words, stdout=subprocess.DEVNULL, stderr=subprocess.DEVNULL)
    _, status, usage = os.wait4(child.pid, 0)
    return time.monotonic() - before, usage.ru_maxrss, os.waitstatus_to_exitcode(status)


def best(words):
    return min(measured(words) for _ in range(3))


def main():
    program = os.path.abspath(sys.argv[1] if len(sys.argv) > 1 else os.path.join(os.path.dirname(__file__), "../crates/actx/out/actx"))
    node, bad = shutil.which("node"), 0
    kinds = (("mixed statements", mixed, "lower", 3), ("deep nests", deep, "lower", 3), ("one object", wide_object, "lower", 3), ("one scope", wide_scope, "lower", 3), ("a text to emit", emitted, "run", 0))
    with tempfile.TemporaryDirectory() as folder:
        path = os.path.join(folder, "a.js")
        for kind, make, mode, wanted in kinds:
            rates = []
            for size in SIZES:
                text = make(size)
                with open(path, "w", encoding="ascii") as file:
                    file.write(text)
                seconds, memory, status = best([program, mode, path])
                rates.append(seconds / len(text))
                bad += status != wanted
                beside = f"; node --check {best([node, '--check', path])[0]:.3f} s" if node else ""
                print(f"{kind}: {len(text)} bytes: {seconds:.3f} s, {memory // 1024} MiB, {1e9 * rates[-1]:.0f} ns a byte, status {status}{beside}")
            print(f"{kind}: the time per byte grows by {100 * (rates[-1] / rates[0] - 1):.0f} % from {SIZES[0]} to {SIZES[-1]} bytes")
    return 1 if bad else 0


if __name__ == "__main__":
    sys.exit(main())
