#!/usr/bin/env python3
"""A quick check of one crate of a clone: built libraries are taken as they are, the others as sources.
Usage, at the clone's top: check.py CRATE [--FLAG ..] [NAME ..]"""
import importlib.machinery
import importlib.util
import os
import subprocess
import sys

root = os.getcwd()
loader = importlib.machinery.SourceFileLoader("rt_mod", "/opt/rattle/bin/rt")
rt = importlib.util.module_from_spec(importlib.util.spec_from_loader("rt_mod", loader))
loader.exec_module(rt)
rt.Crate.cuts_libraries = True
rt.Crate.allowed = rt.handles_of(root)
crate = {it.name: it for it in rt.crates_of(root)}[sys.argv[1]]
flags = [it for it in sys.argv[2:] if it.startswith("--")]
names = [it for it in sys.argv[2:] if not it.startswith("--")]

words = ["--crate-name", crate.name, "src/main.rt" if crate.is_program else "src/lib.rt"]
of_kit = ["core", *crate.of_kit, *[name for dep in crate.below() for name in dep.of_kit]]
for name in dict.fromkeys(of_kit):
    words += ["--extern", f"{name}={rt.KIT}/rlibs/{name}.rlib"]
words += ["-L", f"dependency={rt.KIT}/rlibs"]
built = {}
for dep in crate.below():
    built[dep.name] = all(built[it.name] for it in dep.deps) and dep.is_built()
    if built[dep.name]:
        words += ["--extern", f"{dep.name}={dep.rlib}", "-L", f"dependency={os.path.dirname(dep.rlib)}"]
    else:
        uses = dict.fromkeys(["core", *dep.of_kit, *[it.name for it in dep.deps]])
        words += ["--lib", f"{dep.name}:{','.join(uses)}={dep.folder}/src/lib.rt"]
words += ["--antt-project", f"{rt.KIT}/rattle/logic/antt-project.json"]
words += ["--logic-built", f"{rt.KIT}/logic_built"]
if not any(it.startswith("--jobs") for it in flags):
    words += ["--jobs", "2"]
words += flags
for name in names:
    words += ["--only", name]
print("as sources:", *[name for name, is_built in built.items() if not is_built], flush=True)
sys.exit(subprocess.run([f"{rt.KIT}/bin/rattle", "check", *words], cwd=crate.folder).returncode)
