#!/usr/bin/env python3
"""Where a crate's check spends its time: the seconds of each module and of each function, from nothing.

    python3 tools/proof_seconds.py NAME [LINES]

First `rt check`, which builds the libraries below. Then the kit's prover itself, by one job over an empty folder, since `rt check` begins with what earlier
checks kept. The prover saves each module when it has checked it, so the times of the saved files tell how long each took. Answers, Invariants, lemmas and
specs are what people wrote; the rest is made from the code, and Proof holds what the check found by itself.
"""
import collections
import os
import re
import shutil
import subprocess
import sys
import tempfile

WRITTEN = ("Answers", "Invariants")


def crates():
    """What crates.txt says: for each crate, the libraries that it names."""
    found = {}
    with open("crates.txt", encoding="utf-8") as f:
        for line in f:
            row = re.fullmatch(r"(\w+)( [^:]*)?:(.*)", line.split("#")[0].strip())
            if row:
                found[row[1]] = ("staticlib" in (row[2] or ""), row[3].split())
    return found


def below(known, crate):
    """The repository's libraries below a crate."""
    found = []
    for name in known[crate][1]:
        if name in known:
            found += [it for it in below(known, name) + [name] if it not in found]
    return found


def words(known, crate, folder):
    """The prover's call, in the crate's folder."""
    kit = os.path.dirname(os.path.dirname(os.path.realpath(shutil.which("rt"))))
    static, named = known[crate]
    root = "src/main.rt" if os.path.isfile("crates/%s/src/main.rt" % crate) else "src/lib.rt"
    made = [kit + "/bin/rattle", "check", "--crate-name", crate, root, "--antt-project", kit + "/rattle/logic/antt-project.json"]
    made += ["--logic-built", kit + "/logic_built", "--incremental", folder, "--jobs", "1", "--links", crate + "="]
    for name in ["std"] + [name for name in named if name not in known]:
        made += ["--extern", "%s=%s/rlibs/%s.rlib" % (name, kit, name)]
    for name in [name for name in named if name in known]:
        made += ["--extern", "%s=../%s/out/rlib/%s.rlib" % (name, name, name)]
    for name in below(known, crate):
        made += ["-L", "dependency=../%s/out/rlib" % name]
    return made + ["-L", "dependency=%s/rlibs" % kit] + (["--crate-type", "staticlib"] if static else [])


def saved(folder):
    """The saved modules, as (seconds since the epoch, name without the crate), in the order in which they were saved."""
    found = []
    for root, _, names in os.walk(folder):
        for name in names:
            row = re.fullmatch(r"Rattle-\w+[-.](.*?)(\.decls)?\.oantt", name)
            if row:
                found.append((os.stat(os.path.join(root, name)).st_mtime, row[1]))
    return sorted(found)


def function_of(module):
    """The function that a module belongs to: its path without the parts that the prover adds. A lemma file or a definition is its own."""
    parts = re.sub(r"^(proofs|specs\.contracts)\.", "", module).split(".")
    last = max((i for i, part in enumerate(parts) if part[:1].islower() and part != "specs"), default=None)
    return module if last is None else ".".join(parts[: last + 1])


def kind_of(module):
    last = module.split(".")[-1]
    if function_of(module) == module:
        return "specs" if module.startswith("specs.") else "lemmas"
    return last if last in WRITTEN or last == "Proof" else "made"


def main():
    os.chdir(os.path.join(os.path.dirname(os.path.abspath(__file__)), ".."))
    known = crates()
    if len(sys.argv) < 2 or sys.argv[1] not in known:
        sys.exit(__doc__)
    crate, lines = sys.argv[1], int(sys.argv[2]) if len(sys.argv) > 2 else 20
    how = {"cwd": "crates/" + crate, "stdout": subprocess.PIPE, "stderr": subprocess.STDOUT, "text": True}
    ran = subprocess.run(["rt", "check"], **how)
    if ran.returncode:
        sys.exit(ran.stdout[-2000:])
    with tempfile.TemporaryDirectory() as folder:
        ran = subprocess.run(words(known, crate, folder), **how)
        modules = saved(folder)
    if not modules:
        sys.exit(ran.stdout[-2000:])
    kinds, functions, each = collections.Counter(), collections.Counter(), collections.Counter()
    for (before, _), (now, module) in zip(modules, modules[1:]):
        each[module] += now - before
        kinds[kind_of(module)] += now - before
        functions[function_of(module)] += now - before
    verdict = re.search(r"^logic=\S+", ran.stdout, re.M)
    print("%s: %.1f s; %s" % (crate, modules[-1][0] - modules[0][0], verdict[0] if verdict else "no verdict"))
    print("by kind: " + ", ".join("%s %.1f" % k for k in kinds.most_common()))
    for title, rows in (("modules", each), ("functions, lemma files and definitions", functions)):
        print("-- " + title)
        for name, seconds in rows.most_common(lines):
            print("%7.2f  %s" % (seconds, name))


if __name__ == "__main__":
    main()
