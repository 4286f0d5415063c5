#!/usr/bin/env python3
"""Times the front end, gcc and clang on the same files, and prints the least processor time of five runs each.

Run it in this folder once `rt run` has built the program: python3 data/front.py
"""

import os
import subprocess
import tempfile

PROGRAM = "out/bench_files"
COMPILERS = ["gcc", "clang"]
RUNS = 5
MOST_BYTES = 4 * 1024 * 1024


def functions(count):
    """Short functions of six kinds, one a line."""
    lines = []
    for number in range(count):
        c = 13 * number % 97 + 2
        name = f"f{number}"
        lines.append(
            [
                f"int {name}(int x){{return {c}/x;}}",
                f"int {name}(int x){{if(x==0)return 0;return {c}/x;}}",
                f"int {name}(int *p){{if(p)return *p+{c};return *p;}}",
                f"int {name}(int x,int y){{if(x<y)return {c};return x-y;}}",
                f"int {name}(int n){{int i;int s=0;for(i=0;i<n;i++)s=s+{c};return s;}}",
                f"int {name}(void){{int *p=malloc(sizeof(int));if(!p)return 0;*p={c};free(p);return *p;}}",
            ][number % 6]
        )
    return "void*malloc(unsigned long);void free(void*);\n" + "\n".join(lines) + "\n"


def comments():
    """One function behind as many comments as a file may have bytes for."""
    function = "int f(int x){return 1/x;}\n"
    comment = "/* " + "lorem ipsum dolor sit amet, " * 3 + "*/\n"
    return comment * ((MOST_BYTES - len(function)) // len(comment)) + function


def seconds(command, path):
    """The least processor time of some runs, and the most memory of one in MB."""
    spent, memory = [], []
    for _ in range(RUNS):
        with open(path) as text:
            child = subprocess.Popen(command, stdin=text, stdout=subprocess.DEVNULL)
            _, status, usage = os.wait4(child.pid, 0)
        if status != 0:
            raise SystemExit(f"{command[0]} failed")
        spent.append(usage.ru_utime + usage.ru_stime)
        memory.append(usage.ru_maxrss // 1024)
    return min(spent), max(memory)


def main():
    for name, text in [("functions", functions(14000)), ("comments", comments())]:
        with tempfile.NamedTemporaryFile("w", suffix=".c", delete=False) as file:
            file.write(text)
        print(f"{name}: {len(text)} bytes")
        stages = [[PROGRAM, "front", stage] for stage in ("parse", "type", "lower")]
        for command in stages + [[c, "-fsyntax-only", "-w", file.name] for c in COMPILERS]:
            spent, memory = seconds(command, file.name)
            print(f"  {os.path.basename(command[0])} {' '.join(command[1:3])}: {spent:.2f} s, {memory} MB")
        os.unlink(file.name)


main()
