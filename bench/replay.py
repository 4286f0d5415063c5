#!/usr/bin/env python3
"""Times `csa replay` on a run of some million events beside `tcc -run` on the same source, and prints the least processor time of five runs.

Run it at the top of the repository once `rt run` has built csa in crates/csa: python3 bench/replay.py
"""

import tempfile

from timing import run

PROGRAM = "crates/csa/out/csa"
RUNS = 5
TURNS = 990
# A loop head is reached at most 1000 times in one frame, so the inner loop stands in a function of its own.
SOURCE = """
int turn(int s) {
  int i;
  for (i = 0; i < 250; i++) s = s ^ i;
  return s;
}
int f(int n) {
  int s = 0;
  int i;
  for (i = 0; i < n; i++) s = turn(s) + 1;
  return s;
}
"""
MAIN = "int printf(const char *, ...);\nint main(void) { printf(\"done %%d\\n\", f(%d)); return 0; }\n" % TURNS
# Each turn of the inner loop passes four events: its comparison, its branch, `^` and `++`. A turn of the outer loop passes those of
# its call, the last comparison and branch inside, the call itself, `+`, and its own comparison, branch and `++`.
EVENTS = TURNS * (4 * 250 + 2 + 1 + 1 + 3) + 2


def least(name, command, text, wanted=None):
    runs = [run(command, text) for _ in range(RUNS)]
    said = runs[0][0].strip()
    if wanted is not None and said != wanted:
        raise SystemExit(f"{name} says {said}, and not {wanted}")
    print(f"  {name}: {said}, {min(it[1] for it in runs):.3f} s, {max(it[2] for it in runs)} MB")
    return said


def main():
    replay = [PROGRAM, "replay", "--visits", "1000", "--events", str(EVENTS), "f", f"n={TURNS}"]
    print(f"{EVENTS} events")
    said = least("csa replay", replay, SOURCE)
    fewer = replay[:5] + [str(EVENTS - 1)] + replay[6:]
    print(f"  with one event less: {run(fewer, SOURCE)[0].strip()}")
    with tempfile.NamedTemporaryFile("w", suffix=".c") as file:
        file.write(SOURCE + MAIN)
        file.flush()
        least("tcc -run", ["tcc", "-run", file.name], "", said)


main()
