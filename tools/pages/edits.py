"""The edits, each a wrong body or a wrong definition that the prover must refuse, and what was recorded of each.

An edit is a file in the form of the kit. Those in must-fail/ the gate tries, and those in wrong-bodies/ tools/evidence alone. Of its
comments these are read: `# for: Map::insert: old, pairs; Set::get` names the clauses that it is for, `# wrong: ..` says what is
wrong, and `# right: TEXT` behind a line `new:` has the line of a right body of the same form."""
import collections
import functools
import glob
import hashlib
import os
import re

from pages.sources import around, branches, read, write

GATE, OTHERS = "must-fail", "wrong-bodies"
RECORD = "docs/evidence.tsv"
PROVED, OPEN = "proved", "open"  # what is recorded of a right body
WRITTEN = "written:"  # what stands before a goal that a written proof answers
Pair = collections.namedtuple("Pair", "file old new right")
# The goals at which an edit was refused, and PROVED, OPEN or "" of its right body.
Row = collections.namedtuple("Row", "goals right")


class Dead(Exception):
    """Why an edit can't be applied."""


class Edit(collections.namedtuple("Edit", "path text")):
    @property
    def name(self):
        return os.path.basename(self.path).removesuffix(".edit")

    @property
    def crate(self):
        return "/".join(self.path.split("/")[:2])

    @property
    def is_of_gate(self):
        return f"/{GATE}/" in self.path

    def said(self, word):
        found = re.search(rf"^# {word}: (.+)$", self.text, re.M)
        return found[1] if found else ""

    @functools.cached_property
    def clauses(self):
        """The clauses that the edit is for, as `Map::insert: old`."""
        calls = (it.partition(": ")[::2] for it in self.said("for").split("; ") if it)
        return [f"{call}: {it}".removesuffix(": ") for call, names in calls for it in names.split(", ")]

    @functools.cached_property
    def pairs(self):
        found, file, old = [], "", None
        for line in self.text.rstrip("\n").split("\n"):
            word, _, rest = line.partition(":")
            rest = rest.removeprefix(" ")
            if word == "file":
                file = rest
            elif word == "old":
                old = rest
            elif word == "new" and file and old is not None:
                found.append(Pair(file, old, rest, None))
            elif word == "# right" and found:
                found[-1] = found[-1]._replace(right=rest)
            elif not line.startswith("#"):
                raise Dead(f"no line begins so: {line}")
        return found

    @property
    def is_of_definition(self):
        """Whether it makes a definition wrong, and no body."""
        return all(it.file.startswith("specs/") for it in self.pairs)

    @property
    def has_right(self):
        """Whether the right body isn't the one that stands: it has a line of its own, or goes without a written proof."""
        is_of_proof = any(it.file.startswith("proofs/") for it in self.pairs)
        return is_of_proof or any(it.right is not None for it in self.pairs)

    def made(self, right=False):
        """The files that the edit changes, with what it, or its right body, makes of them. Pairs apply one after the other."""
        texts = {}
        for pair in self.pairs:
            path = f"{self.crate}/{pair.file}"
            if not re.match(r"(?:src|specs|proofs)/", pair.file) or not os.path.isfile(path):
                raise Dead(f"there is no file {pair.file} in src/, specs/ or proofs/")
            text = texts.setdefault(pair.file, read(path))
            if text.count(pair.old) != 1:
                raise Dead(f"{pair.file} has this text {text.count(pair.old)} times, and not once: {pair.old}")
            same = pair.new if pair.file.startswith("proofs/") else pair.old
            new = (same if pair.right is None else pair.right) if right else pair.new
            texts[pair.file] = text.replace(pair.old, new)
        return texts

    @property
    def is_of_another_form(self):
        """Whether the wrong body branches otherwise than the right one, which is the one that stands if it has none of its own."""
        bodies = [it for it in self.pairs if it.file.startswith("src/")]
        rights = (it.old if it.right is None else it.right for it in bodies)
        return branches(rights) != branches(it.new for it in bodies)

    @property
    def sum(self):
        """A sum of the edit and of the functions, or the definitions, that it changes, without their comments."""
        code = {part for it in self.pairs for part in around(read(f"{self.crate}/{it.file}"), it.old)}
        return hashlib.sha256("\n".join([self.text, *sorted(code)]).encode()).hexdigest()[:10]


@functools.cache
def edits():
    paths = (path for folder in (GATE, OTHERS) for path in glob.glob(f"crates/*/{folder}/*.edit"))
    return [Edit(path, read(path)) for path in sorted(paths)]


def dead_edits():
    """What is amiss: an edit that can't be applied or lacks a line, two of one name, a file that is none."""
    for path in sorted(path for folder in (GATE, OTHERS) for path in glob.glob(f"crates/*/{folder}/**", recursive=True)):
        if os.path.isfile(path) and path not in {it.path for it in edits()}:
            yield f"{path}: it isn't tried, since it is no .edit right in its folder"
    for name, count in collections.Counter(it.name for it in edits()).items():
        if count > 1:
            yield f"{count} edits have the name {name}"
    for edit in edits():
        yield from (f"{edit.name}: it has no line # {it}:" for it in ("for", "wrong") if not edit.said(it))
        try:
            if all(text == read(f"{edit.crate}/{file}") for file, text in edit.made().items()):
                yield f"{edit.name}: it changes nothing"
        except Dead as why:
            yield f"{edit.name}: the edit can't be applied: {why}"


def recorded(path=RECORD):
    """The rows of the edits that stand as they were tried."""
    lines = (line.split("\t") for line in read(path).splitlines()) if os.path.exists(path) else ()
    rows = {name: (sum, Row(goals.split(), right)) for name, sum, goals, right in lines}
    return {it: rows[it.name][1] for it in edits() if it.name in rows and rows[it.name][0] == it.sum}


def keep(known, path=RECORD):
    rows = sorted((it.name, it.sum, " ".join(row.goals), row.right) for it, row in known.items())
    write(path, "".join("\t".join(it) + "\n" for it in rows))


def untried():
    """The edits that weren't tried as they and the functions that they change stand."""
    known = recorded()
    return [it for it in edits() if it not in known]
