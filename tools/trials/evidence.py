"""Tries `tools/evidence` in a repository with one small crate: a wrong body that a clause refuses, one that is let through, and one
that can't be applied. Tries also that a changed source and a clause that is gone are told."""
import os
import shutil
import subprocess
import sys
import tempfile

from adding.copies import TOP
from pages.sources import read, write

SOURCE = """//! Two functions.
#![tactic(auto)]

ghost use Rattle.std.specs.Prelude.{◌≡◌, ◌≤◌};

/// Returns the number.
pub fn same(number: u8) -> u8
    ensures { result ≡ number }
{
    let same = number;
    same
}

/// Returns a number that is no greater.
pub fn lower(number: u8) -> u8
    ensures { result ≤ number }
{
    let lower = number;
    lower
}
"""
# An edit that is refused, one that is let through, and one that can't be applied.
EDITS = {
    "same_is_zero": ("same", "    let same = number;", "    let same = 0;"),
    "lower_is_zero": ("lower", "    let lower = number;", "    let lower = 0;"),
    "lower_is_gone": ("lower", "    let least = number;", "    let least = 0;"),
}


class Room:
    """A repository with a small crate, its edits and these tools."""

    def __init__(self, top):
        self.top, self.source = top, f"{top}/crates/tiny/src/lib.rt"
        for folder in ("crates/tiny/src", "crates/tiny/must-fail", "docs"):
            os.makedirs(f"{top}/{folder}")
        shutil.copytree(f"{TOP}/tools", f"{top}/tools", ignore=shutil.ignore_patterns("__pycache__"))
        write(f"{top}/crates.txt", "tiny:\n")
        write(f"{top}/HANDLES", "Handles allowed: none.\n")
        write(self.source, SOURCE)
        for name, (clause, old, new) in EDITS.items():
            text = f"# for: {clause}\n# wrong: it is tried here\nfile: src/lib.rt\nold: {old}\nnew: {new}\n"
            write(f"{top}/crates/tiny/must-fail/{name}.edit", text)

    def run(self, *words):
        ran = subprocess.run([sys.executable, f"{self.top}/tools/evidence", *words], capture_output=True, text=True)
        return ran.stdout + ran.stderr, ran.returncode

    def record(self):
        return read(f"{self.top}/docs/evidence.tsv")


def main():
    wrong = []

    def expect(holds, what):
        if not holds:
            wrong.append(f"tools/evidence: {what}")

    with tempfile.TemporaryDirectory(prefix="evidence-trials-") as top:
        room = Room(top)
        said, status = room.run()
        expect(status == 1, "it ends with 0, though an edit is let through and one can't be applied")
        expect("same_is_zero: refused at same/returns" in said, f"it doesn't tell at which goal an edit is refused: {said}")
        expect("lower_is_zero: no goal refuses it: it is proved" in said, f"it doesn't tell that an edit is let through: {said}")
        expect("lower_is_gone: the edit can't be applied" in said, f"it doesn't tell that an edit can't be applied: {said}")
        expect(room.record().startswith("same_is_zero\t") and room.record().count("\n") == 1, "it records what isn't refused")
        expect("same_is_zero" not in room.run("same_is_zero")[0], "it tries again what it recorded")
        write(room.source, SOURCE.replace("{ result ≡ number }", "{ result ≤ number }"))
        said, status = room.run("same_is_zero")
        expect("same_is_zero: no goal refuses it" in said and status == 1, f"it doesn't try again a changed contract: {said}")
    for it in wrong:
        print(it)
    return int(bool(wrong))
