"""rt itself as a module, for tools that check a crate with other texts, or run rt ci by a schedule of their own."""
import importlib.machinery
import importlib.util
import os
import shutil
import sys


def toolchain():
    """Returns rt as a module."""
    path = os.path.realpath(shutil.which("rt"))
    loader = importlib.machinery.SourceFileLoader("rt_itself", path)
    made = importlib.util.module_from_spec(importlib.util.spec_from_loader("rt_itself", loader))
    sys.modules["rt_itself"] = made
    loader.exec_module(made)
    made.rtlib.Crate = made.Crate
    made.rtlib.guarded()
    return made


def stamp_of(rt, crate):
    """Returns a sum of the kit, and of the sources of the crate and of those below it."""
    # (kits before 13f have that sum with the crate)
    return rt.stamp_of(crate, {}) if hasattr(rt, "stamp_of") else crate.stamp()


def is_from_gate(rt, crate):
    """Whether what ./test has built of this crate is there, and its sources are those that were proved."""
    try:
        with open(mark_of(crate), encoding="utf-8") as it:
            return it.read() == repr(stamp_of(rt, crate))
    except OSError:
        return False


def mark_from_gate(rt, crate):
    """Notes that what is built of this crate is ./test's. (Where another command builds it anew, the note goes.)"""
    if os.path.isdir(f"{crate.folder}/out/rlib"):
        with open(mark_of(crate), "w", encoding="utf-8") as it:
            it.write(repr(stamp_of(rt, crate)))


def mark_of(crate):
    return f"{crate.folder}/out/rlib/from_gate"
