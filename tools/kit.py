"""The kit's command `rt` as a module, for the tools that drive it.

    python3 tools/kit.py COMMAND ..     what `rt COMMAND ..` does, in a crate's folder: with some kits, minutes faster in a crate with many below it
"""
import importlib.machinery
import importlib.util
import os
import shutil
import sys
import threading

sys.dont_write_bytecode = True
# The program that stands in the prover's place, if any: `tools/cost` times its calls so.
STAND_IN = "CSA_PROVER"


def kit(tool):
    """The kit's command `rt`. Its crates know the files that stand beside src/."""
    path = os.path.realpath(shutil.which("rt") or sys.exit(f"{tool}: no rt in PATH"))
    loader = importlib.machinery.SourceFileLoader("rt", path)
    rt = importlib.util.module_from_spec(importlib.util.spec_from_loader("rt", loader))
    sys.modules["rt"] = rt
    loader.exec_module(rt)
    crate = rt.rtlib.Crate
    made = crate.__init__

    def make(self, *given, **named):
        made(self, *given, **named)
        rt.read_files(self)

    crate.__init__ = make
    crate.stamp, crate.below = once_a_call(crate.stamp), once_a_call(crate.below)
    rt.rtlib.RATTLE = os.environ.get(STAND_IN, rt.rtlib.RATTLE)
    return rt


def once_a_call(method):
    """The method, which recurs over the crates below, asking each of these once. Without this it asks one as often as crates.txt has paths to it:
    some 100,000 times for the top crate."""
    local = threading.local()

    def asked(self):
        is_first = getattr(local, "found", None) is None
        if is_first:
            local.found = {}
        try:
            if self.folder not in local.found:
                local.found[self.folder] = method(self)
            answer = local.found[self.folder]
            return list(answer) if isinstance(answer, list) else answer
        finally:
            if is_first:
                local.found = None

    return asked


if __name__ == "__main__":
    sys.exit(kit("tools/kit.py").main(sys.argv[1:]))
