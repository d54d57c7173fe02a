#!/usr/bin/env python3
"""Tries the misuses of a volume's tokens: each file of crates/usage/misuses is an edit of crate usage that the checker has
to refuse, with just the error that it names. `rt ci` tries the must-fail edits, which the prover refuses; a misuse is
refused before the prover is asked, so it is tried here, on a copy, through the tests of crate volume_trials."""
import os
import re
import shutil
import subprocess
import sys
import tempfile

TOP = os.path.dirname(os.path.dirname(os.path.realpath(__file__)))
MISUSES = os.path.join(TOP, "crates", "usage", "misuses")
ERROR = re.compile(r"^(\S+?):\d+:\d+: error\[([\w-]+)\]", re.MULTILINE)


def read_edit(path):
    fields = dict(line.rstrip("\n").split(": ", 1) for line in open(path, encoding="utf-8") if line.strip())
    return fields["file"], fields["old"], fields["new"], fields["refused"]


def tried(copy):
    ran = subprocess.run(["rt", "try", "--test"], cwd=os.path.join(copy, "crates", "volume_trials"), text=True, stdout=subprocess.PIPE, stderr=subprocess.STDOUT)
    errors = [(os.path.relpath(path, copy), name) for path, name in ERROR.findall(ran.stdout)]
    return ran.returncode, errors, ran.stdout


def refused(copy, edit):
    name, old, new, wanted = read_edit(os.path.join(MISUSES, edit))
    path = os.path.join(copy, "crates", "usage", name)
    text = open(path, encoding="utf-8").read()
    if text.count(old) != 1:
        return f"'{old}' stands {text.count(old)} times in {name}, and not once"
    open(path, "w", encoding="utf-8").write(text.replace(old, new))
    status, errors, said = tried(copy)
    open(path, "w", encoding="utf-8").write(text)
    if status == 1 and errors == [(os.path.join("crates", "usage", name), wanted)]:
        return None
    return f"the checker was to say {wanted} and nothing else; it ended with {status} and said\n{said}"


def main():
    with tempfile.TemporaryDirectory() as copy:
        shutil.copy(os.path.join(TOP, "crates.txt"), copy)
        shutil.copytree(os.path.join(TOP, "crates"), os.path.join(copy, "crates"), ignore=shutil.ignore_patterns("out"))
        status, errors, said = tried(copy)
        if status != 0 or errors:
            sys.exit(f"without a misuse the tests of volume_trials end with {status}:\n{said}")
        edits = sorted(os.listdir(MISUSES))
        if not edits:
            sys.exit("there is no misuse to try")
        for edit in edits:
            fault = refused(copy, edit)
            if fault:
                sys.exit(f"misuse {edit}: NOT REFUSED as it must be: {fault}")
            print(f"misuse {edit}: refused, as it must be")


main()
