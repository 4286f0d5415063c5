"""Where the program csa is, for the tools that run it."""
import os
import shutil
import sys
from pathlib import Path

TOP = Path(__file__).resolve().parent.parent


def stop(tool, why):
    """Ends a tool that can't run."""
    print(f"{tool}: {why}", file=sys.stderr)
    sys.exit(2)


def program(tool):
    """The path of the program: that of the variable CSA, else build/csa, else crates/csa/out/csa, else the csa of PATH."""
    named = os.environ.get("CSA")
    found = [named] if named else [TOP / "build" / "csa", TOP / "crates" / "csa" / "out" / "csa", shutil.which("csa")]
    for it in found:
        if it and os.access(it, os.X_OK) and os.path.isfile(it):
            return os.path.abspath(it)
    return stop(tool, "there is no program csa: build it with tools/build, or set CSA to its path")
