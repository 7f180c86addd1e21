#!/usr/bin/env python3
"""Time and peak memory of the proved program on inputs of growing size.

    bench/bench.py [PROGRAM]

PROGRAM is crates/beagle/out/beagle where none is given (`./prove` builds it). For each input one line is printed: its size, the
time in seconds, the peak memory in MiB, how time and memory grew from the size before, and the first line that the program wrote. At
the end the goals are printed with what was measured. A program that is ended by a signal, or whose first line isn't the
expected one, ends the script.

A fresh interpreter starts each run and measures it, because a process begins with the peak of the one that starts it; its own
peak, about 10 MiB, is the least that can be shown.
"""

import os
import subprocess
import sys
import tempfile

TOP = os.path.dirname(os.path.dirname(os.path.abspath(__file__)))
PROGRAM = sys.argv[1] if len(sys.argv) > 1 else os.path.join(TOP, "crates/beagle/out/beagle")
MEBIBYTE = 1 << 20


MEASURE = """
import os, subprocess, sys, time
with open(sys.argv[1], "rb") as source:
    start = time.perf_counter()
    child = subprocess.Popen(sys.argv[2:], stdin=source, stdout=1)
    _, status, usage = os.wait4(child.pid, 0)
    seconds = time.perf_counter() - start
print(seconds, usage.ru_maxrss / 1024, os.waitstatus_to_exitcode(status), file=sys.stderr)
"""


def run(text, words=()):
    """Runs the program: seconds, peak memory in MiB, its status, and the first line of what it wrote."""
    with tempfile.NamedTemporaryFile() as source, tempfile.TemporaryFile() as sink:
        source.write(text)
        source.flush()
        command = [sys.executable, "-S", "-c", MEASURE, source.name, PROGRAM, *words]
        told = subprocess.run(command, stdout=sink, stderr=subprocess.PIPE, check=True).stderr.decode()
        seconds, memory, status = told.split()[-3:]
        sink.seek(0)
        return float(seconds), float(memory), int(status), sink.readline().decode().strip()


def growth(now, before):
    return f"x{now / before:5.2f}" if before else "      "


def series(name, sizes, text_of, words=(), expected=""):
    """Runs the inputs of these sizes; each answer begins with the expected text."""
    print(f"\n{name}\n{'size':>10} {'seconds':>9} {'growth':>7} {'MiB':>8} {'growth':>7} {'status':>6}  answer")
    rows = []
    before = (None, None)
    for size in sizes:
        text = text_of(size)
        seconds, memory, status, line = run(text, words)
        print(f"{size:>10} {seconds:>9.3f} {growth(seconds, before[0]):>7} {memory:>8.1f} {growth(memory, before[1]):>7} {status:>6}  {line}")
        sys.stdout.flush()
        if status < 0 or not line.startswith(expected):
            sys.exit(f"expected {expected!r}")
        before = (seconds, memory)
        rows.append((len(text), seconds, memory))
    return rows


def statements(count_of_bytes, statement):
    """Statements up to so many bytes, numbered."""
    parts = []
    room = count_of_bytes
    number = 0
    while True:
        part = statement(number).encode()
        if len(part) > room:
            return b"".join(parts) + b" " * room
        parts.append(part)
        room -= len(part)
        number += 1


def many_clauses(mebibytes):
    """One comparison a statement: more clauses than 100,000 from 4 MiB on."""
    return statements(mebibytes * MEBIBYTE, lambda n: f"tff(a{n},axiom,$less({n},{n + 1})).\n")


def conjunctions(mebibytes):
    """Eight short comparisons a statement: more clauses than 100,000 from the first size on."""
    each = "&".join(f"{k}!={k + 1}" for k in range(8))
    return statements(mebibytes * MEBIBYTE, lambda n: f"tff(a{n},axiom,{each}).\n")


def prepared(mebibytes):
    """Few enough clauses to be prepared; a proposition makes the problem one that isn't built."""
    types = b"tff(x_type,type,x: $int).\ntff(y_type,type,y: $int).\n"
    long = "".join(f"$lesseq($sum(x,{k}),$sum(y,{k + 1}))|" for k in range(8 * mebibytes))
    return types + statements(mebibytes * MEBIBYTE - len(types), lambda n: f"tff(a{n},axiom,({long}p{n % 1000})).\n")


def named(mebibytes):
    """The same without sums, over parameters with long names."""
    names = [f"{kind}_of_part_{k}" for k in range(4 * mebibytes) for kind in ("start", "length")]
    types = "".join(f"tff({name}_type,type,{name}: $int).\n" for name in names).encode()
    long = "".join(f"$lesseq(start_of_part_{k},length_of_part_{k})|" for k in range(4 * mebibytes))
    return types + statements(mebibytes * MEBIBYTE - len(types), lambda n: f"tff(a{n},axiom,({long}p{n % 1000})).\n")


def dense(mebibytes):
    """Comparisons of one-digit numbers, prepared: a token every two bytes, which costs most for its length."""
    long = "".join(f"{k % 10}!={(k + 1) % 10}|" for k in range(64 * mebibytes))
    return statements(mebibytes * MEBIBYTE, lambda n: f"tff(a{n},axiom,({long}p{n % 1000})).\n")


def chain(length):
    """Each number is below the next, and the last one is at most the first."""
    lines = [f"tff(t{n},type,x{n}: $int)." for n in range(length + 1)]
    lines += [f"tff(a{n},axiom,$less(x{n},x{n + 1}))." for n in range(length)]
    lines.append(f"tff(last,axiom,$lesseq(x{length},x0)).")
    return "\n".join(lines).encode()


def alternation(a):
    """Each number is a sum of multiples of a and a + 1."""
    return f"tff(c,conjecture,![X:$int]:?[Y:$int,Z:$int]: X = $sum($product({a},Y),$product({a + 1},Z))).".encode()


def choices(count):
    """So many numbers that are each 0 or 2, and their sum is 1: a certificate has a leaf for each choice."""
    lines = [f"tff(t{n},type,x{n}: $int)." for n in range(count)]
    lines += [f"tff(a{n},axiom,(x{n} = 0 | x{n} = 2))." for n in range(count)]
    total = "x0"
    for n in range(1, count):
        total = f"$sum({total},x{n})"
    lines.append(f"tff(total,axiom,{total} = 1).")
    return "\n".join(lines).encode()


PROOF = b"tff(a,axiom,$less(3,2)).\n% SZS status Unsatisfiable for stdin\nderivation 1 abstraction\n"


def long_proof(mebibytes):
    """A problem and behind it a derivation that takes its one clause over and over, and closes it."""
    room = mebibytes * MEBIBYTE - len(PROOF) - 100
    lines = []
    while room > 0:
        lines.append(f"{len(lines)} input 0 : (3 + 1) <= 2\n".encode())
        room -= len(lines[-1])
    last = f"{len(lines)} close 0 cert 0 case 0 1 clash 0 : $false\nend\n".encode()
    return PROOF + b"".join(lines) + last


def certificate(levels):
    """A certificate that branches so many levels deep, with the same false fact at each leaf."""
    tree = f"case 0 1 clash {levels}"
    for _ in range(levels):
        tree = f"branch 0 0 {tree} {tree}"
    return PROOF + f"0 input 0 : (3 + 1) <= 2\n1 close 0 cert 0 {tree} : $false\nend\n".encode()


def main():
    if not os.access(PROGRAM, os.X_OK):
        sys.exit(f"no program at {PROGRAM}: run ./prove on a problem first")
    most = ("--judge-steps", "4294967296")
    sizes = (1, 2, 4, 8, 16)
    first = series("The first problem", (1, 2, 3), lambda _: b"tff(a,axiom,$less(3,2)).", (), "% SZS status Unsatisfiable")
    refused = series("Statements, MiB: too many clauses", (4, 8, 16), many_clauses, (), "% refused: TooManyClauses ")
    ready = series("Statements, MiB: prepared", sizes, prepared, (), "% refused: NotBuilt")
    joined = series("Statements of eight comparisons, MiB: too many clauses", sizes, conjunctions, (), "% refused: TooManyClauses ")
    long = series("Statements of long names, MiB: prepared", sizes, named, (), "% refused: NotBuilt")
    packed = series("Statements of short tokens, MiB: prepared", sizes, dense, (), "% refused: NotBuilt")
    series("Chains of differences", (100, 200, 400, 800, 999, 2000), chain, most)
    series("Alternations, a and a + 1", (1, 2, 3, 4, 5), alternation, most)
    series("Certificates, choices", (2, 4, 6, 8, 10, 12), choices, most)
    check = ("--check",)
    proofs = series("Derivations behind their problem, MiB: checked", sizes, long_proof, check, "% verified derivation")
    series("Certificates, levels of branches (15 have 98,303 nodes): checked", (10, 11, 12, 13, 14, 15), certificate, check, "% verified derivation")
    print("\nGoals")
    print(f"  the first problem within 0.010 s: {min(row[1] for row in first):.4f} s")
    every = (("refused", refused), ("prepared", ready), ("of eight comparisons refused", joined), ("of long names prepared", long), ("of short tokens prepared", packed))
    for name, rows in every:
        size, seconds, memory = rows[-1]
        print(f"  16 MiB {name} in under 3 s: {seconds:.2f} s; at most 40 times the input: {memory * MEBIBYTE / size:.1f} times")
    size, seconds, memory = proofs[-1]
    print(f"  a derivation of 16 MiB checked in a few seconds: {seconds:.2f} s; {memory * MEBIBYTE / size:.1f} times the input")


if __name__ == "__main__":
    main()
