#!/usr/bin/env python3
"""Times `csa analyze` on files that grow in one respect each, and beside `clang --analyze` where that is a peer.

usage: python3 bench/analyze.py, at the top of the repository; CSA names the program (crates/csa/out/csa), and BENCH_FILES that of
crates/bench_files, which counts the rows of the graphs. Prints the least processor time of five runs, and the most memory.
"""
import os
import shutil
import tempfile

from timing import run

CSA = os.environ.get("CSA", "crates/csa/out/csa")
COUNTER = os.environ.get("BENCH_FILES", "crates/bench_files/out/bench_files")
RUNS = 5


def least(command, text):
    runs = [run(command, text) for _ in range(RUNS)]
    return min(it[1] for it in runs), max(it[2] for it in runs)


def doubled(count, table="", further=0):
    """Tests of parameters in a row, each of which doubles a number, with or without 1: each path has its own sum. A table may be bound first."""
    parameters = ",".join([f"int p{it}" for it in range(count)] + [f"int q{it}" for it in range(further)])
    tests = "".join(f"if(p{it})s=s*2+1;else s=s*2;" for it in range(count))
    return f"int f({parameters}){{int s=0;{table}{tests}return s;}}\n"


def listed(size):
    """A table that an initializer list binds: one binding each."""
    return f"int t[{size}]={{{','.join(str(it) for it in range(size))}}};"


def filled(size):
    """A table that loops bind, whose heads are rows too."""
    half = size // 2
    return f"int t[{size}];int i;for(i=0;i<{half};i++)t[i]=i;for(i={half};i<{size};i++)t[i]=i;"


def merged(count):
    """Branches in a row whose ways meet with the same state."""
    return f"int f(int x){{int s=0;{'if(x)s=0;' * count}return s;}}\n"


def copied(count):
    """A copy of a struct of so many scalars."""
    return f"struct s{{int a[{count}];}};void f(struct s*p,struct s*q){{*p=*q;}}\n"


def again(turns):
    """The same struct of 4,096 scalars copied in so many turns."""
    return f"struct s{{int a[4096];}};struct s p;struct s q;int f(void){{{'q=p;' * turns}return q.a[0];}}\n"


def looked_up(count):
    """Reads of a constant table at an offset that isn't known."""
    numbers = ",".join(str(it % 7) for it in range(count))
    return f"const int t[{count}]={{{numbers}}};int f(unsigned i){{if(i<64)return t[i];return 0;}}\n"


def findings(count):
    """A fault in each of so many functions, in a file of as many objects."""
    objects = "".join(f"int g{it};\n" for it in range(count))
    return objects + "".join(f"int f{it}(int x){{return g{it}/x;}}\n" for it in range(count))


def functions(count):
    """Short functions."""
    return "".join(f"int f{it}(int x){{if(x>{it % 50})return x-{it % 9};return {it};}}\n" for it in range(count))


def row(what, text, words=()):
    seconds, memory = least([CSA, "analyze", *words], text)
    rows = "-"
    if os.path.isfile(COUNTER):
        counted = dict(line.split() for line in run([COUNTER, "analysis", "analyze", *words], text)[0].splitlines() if len(line.split()) == 2)
        rows = counted.get("rows", "-")
    print(f"| {what} | {rows} | {seconds:.3f} s | {memory} MB |", flush=True)


def generated():
    """The time of generated files beside clang's."""
    bodies = [
        "(int x){{return {c}/x;}}",
        "(int x){{if(x==0)return 0;return {c}/x;}}",
        "(int *p){{if(p)return *p+{c};return *p;}}",
        "(int x,int y){{if(x<y)return {c};return x-y;}}",
        "(int n){{int i;int s=0;for(i=0;i<n;i++)s=s+{c};return s;}}",
        "(void){{int *p=malloc(sizeof(int));if(!p)return 0;*p={c};free(p);return *p;}}",
    ]
    lines = [f"int f{it}" + bodies[(7 + it) % 6].format(c=(49 + 13 * it) % 97 + 2) for it in range(4000)]
    seconds, memory = least([CSA, "generate", "7", "4000"], "")
    print(f"| csa generate 7 4000 | | {seconds:.3f} s | {memory} MB |")
    if shutil.which("clang"):
        with tempfile.NamedTemporaryFile("w", suffix=".c") as file:
            file.write("\n".join(lines) + "\n")
            file.flush()
            seconds, memory = least(["clang", "--analyze", "-o", os.devnull, "-include", "stdlib.h", file.name], "")
        print(f"| clang --analyze of the same file | | {seconds:.3f} s | {memory} MB |")


def main():
    print("| what | rows | time | memory |\n|---|---|---|---|")
    generated()
    for count in (6, 8, 10, 12):
        row(f"{count} tests of {count} parameters", doubled(count))
    for size in (64, 256, 1024):
        row(f"12 tests, with a table of {size} ints", doubled(12, listed(size)))
    for size in (64, 256, 1024):
        row(f"12 tests, with a table of {size} ints that loops fill", doubled(12, filled(size)), ["--visits", "1000", "--events", "100000"])
    for further in (16, 64, 256):
        row(f"10 tests of 10 parameters, and {further} further parameters", doubled(10, further=further))
    row("150,000 rows, then cut", doubled(16), ["--nodes", "150000"])
    row("20 merged branches", merged(20))
    row("a copy of a struct of 4,096 scalars", copied(4096))
    once, often = (least([CSA, "analyze"], again(turns))[0] for turns in (1, 101))
    print(f"| each further copy of the same struct | | {10 * (often - once):.2f} ms | |", flush=True)
    row("a constant table of 4,096 ints under 64 splits", looked_up(4096))
    seconds, memory = least([CSA, "flow"], looked_up(4096))
    print(f"| the flow of the same file | | {seconds:.3f} s | {memory} MB |", flush=True)
    row("3,000 findings in a file of 3,000 objects", findings(3000))
    for count in (3500, 7000, 14000):
        row(f"{count} functions", functions(count))


if __name__ == "__main__":
    main()
