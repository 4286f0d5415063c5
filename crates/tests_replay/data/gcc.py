#!/usr/bin/env python3
"""Runs the programs of `src/programs.rt` as gcc compiles them: `python3 data/gcc.py`, in the crate's folder.

Each is compiled with `-fwrapv` and a `main` that prints what `f` returns. `--write` writes these results into the table, so that a
row can be entered with any line. The status is 1 where gcc differs from the table."""
import re
import subprocess
import sys
import tempfile

TABLE = "src/programs.rt"
ROW = re.compile(r"^(replay .*?: (.*) => )(.*)$", re.M)
MAIN = """
int printf(const char *, ...);
int main(void) {
  printf(_Generic(f(), int: "done %d", unsigned: "done %u", long: "done %ld", unsigned long: "done %lu",
                  long long: "done %lld", unsigned long long: "done %llu"), f());
}
"""


def line_of(program, folder):
    """What the program prints, or why it can't be run."""
    command = ["gcc", "-std=gnu11", "-w", "-fwrapv", "-x", "c", "-", "-o", f"{folder}/program"]
    made = subprocess.run(command, input=program + MAIN, text=True, capture_output=True)
    if made.returncode:
        return made.stderr.strip().split("\n")[0]
    return subprocess.run([f"{folder}/program"], text=True, capture_output=True, timeout=10).stdout.strip()


def main():
    text = open(TABLE, encoding="utf-8").read()
    rows = list(ROW.finditer(text))
    with tempfile.TemporaryDirectory() as folder:
        found = [line_of(row[2], folder) for row in rows]
    other = [(row, line) for row, line in zip(rows, found) if line != row[3]]
    print(f"{TABLE}: {len(rows)} rows, gcc differs on {len(other)}")
    for row, line in other:
        print(f"  {row[2]}: {row[3]}, gcc: {line}")
    if "--write" in sys.argv[1:]:
        lines = iter(found)
        text = ROW.sub(lambda row: f"{row[1]}{next(lines)}", text)
        open(TABLE, "w", encoding="utf-8").write(text)
    elif other:
        sys.exit(1)


main()
