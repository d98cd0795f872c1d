#!/usr/bin/env python3
"""Misuses that the compiler turns away. Each file of crates/*/misuse/ is an edit, in the form of those of
must-fail/, with one line more: 'error: NAME'. It is applied to a copy of the repository, and the compiler
must refuse the edited file there by the error of that name. An edit of must-fail/ would not do, since such
an edit must compile. `python3 tools/misuse.py`, from the top of the repository."""
import glob
import os
import shutil
import subprocess
import sys
import tempfile
from concurrent.futures import ThreadPoolExecutor

# Without a test, `rt try` has nothing to build: it compiles the crate and what it stands on, and proves nothing.
EMPTY_TEST = "\n#[test]\nfn nothing() {}\n"


def parts(edit):
    """The fields of an edit, in order; other lines are remarks."""
    with open(edit) as file:
        for line in file:
            field, _, text = line.rstrip("\n").partition(": ")
            if field in ("error", "file", "old", "new"):
                yield field, text


def apply(edit, crate):
    """Applies the edit in this folder of its crate; the file's path and the error's name."""
    path = error = old = None
    for field, text in parts(edit):
        if field == "error":
            error = text
        elif field == "file":
            path = text
        elif field == "old":
            old = text
        else:
            with open(os.path.join(crate, path)) as file:
                code = file.read()
            if code.count(old) != 1:
                raise SystemExit(f"{edit}: not once in {path}: {old.strip()}")
            with open(os.path.join(crate, path), "w") as file:
                file.write(code.replace(old, text))
    return path, error


def is_refused(edit):
    name = os.path.relpath(os.path.dirname(os.path.dirname(edit)))
    with tempfile.TemporaryDirectory() as copy:
        shutil.copytree("crates", os.path.join(copy, "crates"), ignore=shutil.ignore_patterns("out"))
        shutil.copy("crates.txt", copy)
        crate = os.path.join(copy, name)
        path, error = apply(edit, crate)
        with open(os.path.join(crate, "src", "lib.rt"), "a") as file:
            file.write(EMPTY_TEST)
        run = subprocess.run(["rt", "try", "--test"], cwd=crate, capture_output=True, text=True)
    said = (run.stdout + run.stderr).splitlines()
    refused = any(line.startswith(f"{path}:") and f"error[{error}]" in line for line in said)
    print(f"{edit}: {'refused, ' + error if refused else 'NOT REFUSED by ' + error}", flush=True)
    if not refused:
        print("\n".join(said[-10:]))
    return refused


edits = sorted(glob.glob("crates/*/misuse/*.edit"))
with ThreadPoolExecutor(os.cpu_count()) as pool:
    results = list(pool.map(is_refused, edits))
sys.exit(0 if results and all(results) else 1)
