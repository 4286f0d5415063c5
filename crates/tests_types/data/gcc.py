#!/usr/bin/env python3
"""Compares the tables of this crate with gcc: `python3 data/gcc.py`, in the crate's folder.

Each constant's type and value is asserted, each value's type selected by `_Generic`, and each refused expression given to
`gcc -pedantic-errors`, save for what C itself takes: large sizes, targets of `malloc`, functions as values, structs of many
scalars, and some uses of pointers."""
import re
import subprocess
import sys

SCENE = """
enum E { K = 5 };
typedef int T;
struct S { int a; char c; };
struct N;
struct B { int a[5000]; };
int i; unsigned u; long l; unsigned long w; long long o; short h; char c;
int a[3], m[2][3], *p; char *q; void *v;
struct S s, *t; struct N *n; struct B b, *d;
int f(int); void g(void);
void *malloc(__SIZE_TYPE__); void *calloc(__SIZE_TYPE__, __SIZE_TYPE__); void free(void *);
"""
CODES_OF_CSA = {"7", "8", "14", "18"}
TAKEN_BY_C = {"*v", "p=v", "(char*)v", "(int)p", "(char*)p"}


def tables(path):
    """The tables of a file: its rows by the table's name."""
    text = open(path, encoding="utf-8").read()
    found = {}
    for table in re.finditer(r'const (\w+): &str = r#"\n(.*?)\n"#;', text, re.S):
        found[table[1]] = [tuple(row.split(" => ")) for row in table[2].split("\n")]
    return found


def accepted(flag, body):
    command = ["gcc", flag, "-std=c11", "-pedantic-errors", "-fsyntax-only", "-x", "c", "-"]
    return subprocess.run(command, input=SCENE + body, text=True, capture_output=True).returncode == 0


def constant(flag, expression, told):
    if told.startswith("code"):
        return not accepted(flag, f"enum {{ Z = ({expression}) }};")
    kind, value = told.rsplit(" ", 1)
    suffix = "ull" if "unsigned" in kind else "ll"
    value = "(-9223372036854775807ll-1)" if value == "-9223372036854775808" else value + suffix
    return accepted(flag, f"_Static_assert(_Generic(({expression}), {kind}: 1, default: 0), \"\");\n"
                    f"_Static_assert(({expression}) == {value}, \"\");")


def typed(flag, expression, told):
    if told.startswith("code"):
        code = told.split()[1]
        return code in CODES_OF_CSA or expression in TAKEN_BY_C or not accepted(flag, f"void run(void) {{ ({expression}); }}")
    if told == "void":
        return accepted(flag, f"void run(void) {{ ({expression}); }}")
    return accepted(flag, f"_Static_assert(_Generic(({expression}), {told}: 1, default: 0), \"\");")


def main():
    wrong = 0
    for path, judge in [("src/constants.rt", constant), ("src/types.rt", typed)]:
        for table, rows in tables(path).items():
            flag = "-m32" if table == "ILP32" else "-m64"
            wrong += report(path, rows, lambda e, told: judge(flag, e, told))
    found = tables("src/refused.rt")
    wrong += report("src/refused.rt", found["TYPES"], lambda e, told: typed("-m64", e, told))
    wrong += report("src/refused.rt", found["CONSTANTS"], lambda e, told: constant("-m64", e, told))
    sys.exit(wrong > 0)


def report(path, rows, judge):
    bad = [row for row in rows if not judge(*row)]
    print(f"{path}: {len(rows)} rows, gcc differs on {len(bad)}")
    for expression, told in bad:
        print(f"  {expression}: {told}")
    return len(bad)


main()
