#!/usr/bin/env python3
"""Hands a clone the libraries that rt ci kept on this machine. Usage: give.py [CLONE]"""
import importlib.machinery
import importlib.util
import os
import shutil
import sys

root = os.path.abspath(sys.argv[1] if len(sys.argv) > 1 else ".")
os.chdir(root)
loader = importlib.machinery.SourceFileLoader("rt_mod", "/opt/rattle/bin/rt")
rt = importlib.util.module_from_spec(importlib.util.spec_from_loader("rt_mod", loader))
loader.exec_module(rt)
rt.Crate.cuts_libraries = True
rt.Crate.allowed = rt.handles_of(root)
crates = [it for it in rt.crates_of(root) if not it.is_program]
kept = rt.Kept(crates)
# Nothing that is kept is ever removed from here.
kept.drop = lambda path: None


def is_given(crate):
    """Whether the library stands in the clone, or could be taken from what is kept."""
    top = f"{crate.folder}/out/rlib"
    if os.path.isfile(f"{top}/stamp") and crate.is_built():
        return True
    key = kept.key(crate)
    if not os.path.isdir(kept.place(crate, False, key)):
        return False
    # A link can't be made over one that stands.
    shutil.rmtree(top, ignore_errors=True)
    os.makedirs(f"{crate.folder}/out", exist_ok=True)
    if not kept.give(crate, False, key):
        return False
    with open(f"{top}/stamp", "w", encoding="utf-8") as it:
        it.write(crate.stamp())
    return True


given, lacking = set(), []
for crate in crates:
    if all(it.name in given for it in crate.below()) and is_given(crate):
        kept.is_built(crate)
        given.add(crate.name)
    else:
        lacking.append(crate.name)
print(len(given), "given; lacking:", *lacking)
