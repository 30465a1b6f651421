#!/usr/bin/env python3
"""gate.py [FOLDER]: runs the merge gate on a clone of this repository, and prints for each crate the processor minutes of
its check, of its tests' check and of its edits.

It runs the toolchain's own `rt ci`, from nothing, out of a folder beside the clone in which `rattle` is a script that
notes the times of each call. Everything else there is a link to the toolchain. FOLDER is where clone and notes are
made (a new folder below /tmp if none is given); `gate.py --table NOTES` prints the table of notes that are there."""
import collections
import os
import re
import subprocess
import sys
import tempfile

TOP = os.path.dirname(os.path.dirname(os.path.realpath(__file__)))
NOTE = """#!/bin/sh
exec /usr/bin/time -q -o {notes} -a -f "%U %S %e %M $PWD $*" {rattle} "$@"
"""


def kit_with_notes(folder):
    """A copy of the kit's folder, of links, whose `rattle` notes its times."""
    kit = os.path.dirname(subprocess.run(["rt", "doc"], capture_output=True, text=True, check=True).stdout.strip())
    os.makedirs(f"{folder}/kit/bin")
    for name in os.listdir(kit):
        if name != "bin":
            os.symlink(f"{kit}/{name}", f"{folder}/kit/{name}")
    for name in os.listdir(f"{kit}/bin"):
        if name in ("rt", "rtlib.py"):
            # (they find the kit by their own place, so a link would not do)
            subprocess.run(["cp", f"{kit}/bin/{name}", f"{folder}/kit/bin/{name}"], check=True)
        elif name != "rattle":
            os.symlink(f"{kit}/bin/{name}", f"{folder}/kit/bin/{name}")
    with open(f"{folder}/kit/bin/rattle", "w", encoding="utf-8") as file:
        file.write(NOTE.format(notes=f"{folder}/notes", rattle=f"{kit}/bin/rattle"))
    os.chmod(f"{folder}/kit/bin/rattle", 0o755)
    return f"{folder}/kit/bin/rt"


def kind_of(place, words):
    """What a call of rattle was for."""
    if "/rt-edit-" in place:
        return "edits"
    return "tests" if " --test" in words else "check"


def read_notes(path):
    """The processor seconds and the greatest memory (kB) of each crate and kind."""
    seconds, memory = collections.Counter(), collections.Counter()
    with open(path, encoding="utf-8", errors="replace") as file:
        for line in file:
            note = re.match(r"([\d.]+) ([\d.]+) ([\d.]+) (\d+) (\d+ )?(\S+) (.*)", line)
            named = note and re.search(r"--crate-name (\S+)", note[7])
            if named:
                key = named[1], kind_of(note[6], note[7])
                seconds[key] += float(note[1]) + float(note[2])
                memory[key] = max(memory[key], int(note[4]))
    return seconds, memory


def print_table(path):
    seconds, memory = read_notes(path)
    crates = {crate for crate, _ in seconds}
    total = {crate: sum(seconds[crate, kind] for kind in ("check", "tests", "edits")) for crate in crates}
    minutes = lambda value: f"{value / 60:.1f}" if value else ""
    print("| crate | check | tests | edits | all | GB |\n|---|---|---|---|---|---|")
    for crate in sorted(crates, key=lambda it: -total[it]):
        each = [minutes(seconds[crate, kind]) for kind in ("check", "tests", "edits")]
        most = max(memory[crate, kind] for kind in ("check", "tests", "edits")) / 1e6
        print(f"| `{crate}` | {' | '.join(each)} | {minutes(total[crate])} | {most:.1f} |")
    sums = [minutes(sum(value for (_, kind), value in seconds.items() if kind == it)) for it in ("check", "tests", "edits")]
    print(f"| all | {' | '.join(sums)} | {minutes(sum(total.values()))} | |")


def main(words):
    if words[:1] == ["--table"]:
        print_table(words[1])
        return 0
    folder = os.path.realpath(words[0]) if words else tempfile.mkdtemp(prefix="vginsert-gate-")
    os.makedirs(folder, exist_ok=True)
    rt = kit_with_notes(folder)
    subprocess.run(["git", "clone", "-q", TOP, f"{folder}/clone"], check=True)
    print(f"the gate runs in {folder}", flush=True)
    with open(f"{folder}/said", "w", encoding="utf-8") as said:
        status = subprocess.run([rt, "ci"], cwd=f"{folder}/clone", stdout=said, stderr=subprocess.STDOUT).returncode
    print_table(f"{folder}/notes")
    return status


if __name__ == "__main__":
    sys.exit(main(sys.argv[1:]))
