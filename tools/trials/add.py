"""Tries `tools/add` in a folder of its own: new and older copies, refusals, the documents of a copy, and each example."""
import os
import re
import subprocess
import sys
import tempfile
from pathlib import Path

from adding.copies import IGNORED, LIBRARY, LIST, ORIGIN, PROGRAMS, TOP
from adding.copies import library, origin_of, program_as, rows_for, text_of, write
from adding.gallery import GALLERY, examples, with_example
from pages.links import HOME, dead_links


def state(folder):
    """The files below a folder, with their content."""
    return {str(it.relative_to(folder)): it.read_bytes() for it in Path(folder).rglob("*") if it.is_file()}


class Trial:
    """Runs this tool in a folder of its own, and notes what isn't as it must be."""

    def __init__(self, room):
        self.room, self.wrong = room, []

    def expect(self, holds, what):
        if not holds:
            self.wrong.append(f"tools/add: {what}")

    def make(self, name, files):
        os.makedirs(f"{self.room}/{name}", exist_ok=True)
        for path, content in files.items():
            write(f"{self.room}/{name}/{path}", content)

    def run(self, *words):
        ran = subprocess.run([sys.executable, f"{TOP}/tools/add", *words], cwd=self.room, capture_output=True, text=True)
        return ran.returncode, ran.stderr

    def adds(self, *words):
        """Expects that an addition is made."""
        status, said = self.run(*words)
        self.expect(status == 0 and not said, f"the addition {words} isn't made: {said}")

    def refuses(self, why, *words):
        """Expects that an addition is refused with these words, and changes nothing."""
        before = state(self.room)
        status, said = self.run(*words)
        self.expect(status == 1 and why in said, f"the addition {words} isn't refused by '{why}': {said}")
        self.expect(state(self.room) == before, f"the addition {words} is refused, and yet something changed")

    def expect_files(self, name, wanted, what):
        made = state(f"{self.room}/{name}")
        differing = sorted(it for it in made | wanted if made.get(it) != wanted.get(it))
        self.expect(not differing, f"{what}: {differing}")


def try_copies(trial):
    """A new copy with a program, the same again, and a copy of an older library beside a user's own lines."""
    trial.make("new", {})
    trial.adds("new", "first")
    own, origin = rows_for("first"), {ORIGIN: origin_of(library()).encode()}
    listed = "".join(f"{it}\n" for it in own.values()).encode()
    wanted = library() | program_as("first") | origin | {IGNORED: b"out/\n", LIST: listed}
    trial.expect_files("new", wanted, "a new copy isn't as it must be")
    trial.expect(not re.search("/(must-fail|wrong-bodies|out)/", " ".join(wanted)), "a new copy has wrong bodies or out/")
    trial.adds("new")
    trial.expect_files("new", wanted, "a second addition changes something")
    older = library() | {"crates/micromap/src/gone.rt": b"", "crates/micromap/src/lib.rt": b"// older\n"}
    rows = f"# mine\nmicromap: micromap_core # a comment\nother:\n{own['micromap_walk']}\n"
    trial.make("older", older | {ORIGIN: origin_of(older).encode(), LIST: rows.encode()})
    trial.adds("older")
    rows = f"# mine\n{own['micromap']} # a comment\nother:\n{own['micromap_walk']}\n{own['micromap_core']}\n"
    wanted = library() | origin | {LIST: rows.encode()}
    trial.expect_files("older", wanted, "an older copy isn't brought up to date")


def try_contract(trial):
    """A new copy with the program that has a contract."""
    trial.make("contract", {})
    trial.adds("--contract", "contract", "second")
    made, wanted = state(f"{trial.room}/contract"), program_as("second", PROGRAMS[1])
    differing = [it for it in wanted if made.get(it) != wanted[it]]
    trial.expect(not differing and b"\nsecond: micromap micromap_core\n" in made[LIST], f"the program with a contract: {differing}")


def try_refusals(trial):
    """Each reason for which nothing is changed; the folder `new` has a copy."""
    trial.make("cargo", {"Cargo.toml": b"", "crates/app/src/main.rs": b""})
    trial.refuses("is no Rattle repository", "cargo")
    trial.refuses("there is no folder", "nowhere")
    trial.make("flat", {LIST: b"app:\n", "app/src/main.rt": b""})
    trial.refuses("don't stand in a folder crates/", "flat")
    trial.refuses("is this library's own repository", TOP)
    trial.make("new/empty", {})
    trial.refuses("is in the repository", "new/empty")
    trial.make("taken", {LIST: b"micromap_walk:\n", "crates/micromap_walk/src/lib.rt": b""})
    trial.refuses("isn't a copy by this tool", "taken")
    trial.make("named", {LIST: b"libraries/micromap-core:\n", "crates/libraries/micromap-core/src/lib.rt": b""})
    trial.refuses("isn't a copy by this tool", "named")
    trial.refuses("can't name a crate", "new", "App")
    for crate in ("micromap_core", "first"):
        trial.refuses(f"has a crate {crate} already", "new", crate)
    for path in ("crates/micromap_core/src/map.rt", "crates/micromap/src/mine.rt"):
        trial.make("new", {path: b"// mine\n"})
        trial.refuses(path, "new")


def amiss_in(name, made):
    """What isn't as it must be in the files that the crate `first`, and the list of crates, get with an example."""
    text, at = "\n".join(made.values()), "crates/first"
    yield from (f"names {it}" for it in GALLERY if it in text)
    for folder, its in re.findall(r"Rattle\.first\.(specs|proofs)\.([A-Z]\w*)\.", text):
        if f"{at}/{folder}/{its}.antt" not in made or f"pub mod {its}\n" not in made[f"{at}/{folder}/Lib.antt"]:
            yield f"names {folder}/{its}.antt, which isn't there or isn't listed"
    if f"\nmod {name.lower()};\n" not in made[f"{at}/src/main.rt"] or not re.search(rf"\b(?:fn|struct) {name}\b", text):
        yield "isn't in the crate"
    if not re.search(r"^first: .*\bmicromap micromap_core$", made[LIST], re.M):
        yield "is in a crate whose line lacks the library"


def try_examples(trial):
    """Makes each example for the program `first` of the folder `new`, and writes some there."""
    dest = f"{trial.room}/new"
    for name in examples():
        trial.wrong += [f"tools/add: the example {name} {it}" for it in amiss_in(name, with_example(name, dest, "first"))]
    wanted = state(dest)
    for name in ("user_with", "place", "place"):
        wanted |= {it: text.encode() for it, text in with_example(name, dest, "first").items()}
        trial.adds("--example", name, "new/crates/first")
    trial.expect_files("new", wanted, "an example changes other files than its own")
    trial.make("new", {"crates/first/src/swap.rt": b"// mine\n"})
    refusals = {
        "map_of_lists": "the nearest are map_of_list",
        "histogram": "the nearest are counts_by_tens, counts_or_none",
        "is_held": "crates/first/specs/Permissions.antt",
        "swap": "crates/first/src/swap.rt",
    }
    for name, why in refusals.items():
        trial.refuses(why, "--example", name, "new/crates/first")
    trial.refuses("has no crate nobody", "--example", "swap", "new/crates/nobody")
    trial.refuses("is this library's own", "--example", "swap", f"{TOP}/crates/micromap_first")


def try_documents(trial):
    """Follows each link of the documents in a copy, which have to say where files are that weren't copied."""
    top = f"{trial.room}/new"
    for path in sorted(it for it in library() if it.endswith(".md")):
        trial.wrong += [f"tools/add: in a copy, {it}" for it in dead_links(path, top)]
        text = text_of(f"{top}/{path}")
        named = sorted({*re.findall(r"`(?:crates/)?(micromap_\w+)[`/]", text)} - {*LIBRARY})
        trial.expect(not named or HOME in text, f"{path} names {', '.join(named)}, and doesn't say '{HOME}'")


def check():
    """Tries all of this, looks for the program in the README, and returns the status."""
    with tempfile.TemporaryDirectory() as room:
        trial = Trial(os.path.realpath(room))
        for tries in (try_copies, try_contract, try_documents, try_examples, try_refusals):
            tries(trial)
    for it in PROGRAMS:
        program = text_of(f"{TOP}/crates/{it}/src/main.rt")
        has_program = f"```rust\n{program}```\n" in text_of(f"{TOP}/README.md")
        trial.expect(has_program, f"no block of README.md is the whole program of {it}")
    print("\n".join(trial.wrong) or "tools/add: copies are made, brought up to date and refused as they must be")
    return 1 if trial.wrong else 0
