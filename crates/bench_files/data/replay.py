#!/usr/bin/env python3
"""Times replays: the processor time of some replays less that of none, the least of five runs.

Run it in this folder once `rt run` has built the program: python3 data/replay.py
"""

import os
import subprocess
import sys
import tempfile

PROGRAM = sys.argv[1] if len(sys.argv) > 1 else "out/bench_files"
RUNS = 5


def globals_of(count):
    """File-scope objects of three kinds, and a function that reads some of them."""
    lines = []
    for number in range(count):
        lines.append(
            [
                f"int g{number};",
                f"const int t{number}[4]={{1,2,3,{number}}};",
                f"struct s{number}{{int a;long b;}};struct s{number} v{number};",
            ][number % 3]
        )
    return "\n".join(lines) + "\nint f(void){g0=g0+t1[3];return g0+v2.a;}\n"


COPIES = "int i;q=p;p=q;for(i=0;i<{turns};i++){{q=p;p=q;}}return q.{last};"
# Each turn copies twice, and two copies come before the first.
STRUCTS = [
    ("an array", "struct b{int a[4096];};", "struct b p={{1}};struct b q;", "a[0]"),
    ("64 arrays", "struct b{" + "".join(f"int a{n}[64];" for n in range(64)) + "};", "struct b p={{1}};struct b q;", "a0[0]"),
    ("members", "struct b{" + "".join(f"int a{n};" for n in range(4096)) + "};", "struct b p={1};struct b q;", "a0"),
]
CONSTANT = "struct b{int a[4096];};const struct b p={{" + ",".join(str(n) for n in range(4096)) + "}};"
READS = "const int t[4096]={" + ",".join(str(n) for n in range(4096)) + "};"


def spent(text, count):
    """The least processor time of some runs in seconds."""
    least = None
    with tempfile.NamedTemporaryFile("w", suffix=".c") as file:
        file.write(text)
        file.flush()
        for _ in range(RUNS):
            with open(file.name) as given:
                child = subprocess.Popen([PROGRAM, "replay", str(count)], stdin=given, stdout=subprocess.PIPE)
                said = child.stdout.read().decode()
                _, status, usage = os.wait4(child.pid, 0)
            if status != 0 or "events" not in said:
                raise SystemExit(f"{PROGRAM} says {said!r}")
            time = usage.ru_utime + usage.ru_stime
            least = time if least is None else min(least, time)
    return least


def more(text, count):
    """The time of some replays."""
    return spent(text, count) - spent(text, 0)


def turns(body, many):
    """The time of a turn of a loop: of many turns less that of none."""
    return (more(body(many), 1) - more(body(0), 1)) / many


def main():
    print(f"3,000 replays among 3,000 objects: {more(globals_of(3000), 3000):.3f} s")
    for name, struct, locals_, last in STRUCTS:
        body = lambda many, struct=struct, locals_=locals_, last=last: struct + "int f(void){" + locals_ + COPIES.format(turns=many, last=last) + "}"
        print(f"a copy of a struct of 4,096 scalars, {name}: {turns(body, 400) / 2 * 1000:.3f} ms")
    constant = lambda many: CONSTANT + f"int f(void){{struct b q;int i;q=p;for(i=0;i<{many};i++)q=p;return q.a[1];}}"
    print(f"a copy of such a const struct: {turns(constant, 400) * 1000:.3f} ms")
    for at in (0, 4095):
        read = lambda many, at=at: READS + f"int f(void){{int i;int s=0;for(i=0;i<{many};i++)s=s^t[{at}];return s;}}"
        print(f"a turn of a loop that reads element {at} of 4,096: {turns(read, 50000) * 1e6:.3f} us")


main()
