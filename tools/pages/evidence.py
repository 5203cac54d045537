"""docs/EVIDENCE.md: what the refusals of wrong bodies show of each clause, the weakest first."""
import collections
import re

from pages.api import API
from pages.edits import PROVED, WRITTEN, edits, recorded
from pages.planted import planted_rows
from pages.sources import LIBRARY, Sources, anchor

EVIDENCE = "docs/EVIDENCE.md"
REFUSED, OPEN, UNTRIED = "refused", "open", "untried"
# The calls whose clauses stand first.
HEADLINE = ["Map::eq_with", "PartialEq for Map", "Map::differs_at"]
HEADLINE += [f"Set::{it}" for it in ("eq_with", "is_subset", "is_superset", "is_disjoint")]
for _call in ("difference", "difference_ref", "intersection", "union", "symmetric_difference"):
    HEADLINE += [f"Set::{_call}", f"Iterator for {_call.title().replace('_', '')}"]
# What the goals of clauses are called that ghost members of traits stand in.
GHOSTS = {"next_gives": "steps", "remaining": "goes", "output": "writes", "styled_output": "styled", "debug_output": "writes"}
HEAD = """# Evidence

Made by `tools/documents` from the sources, from the wrong bodies, and from what [`tools/evidence`](MAINTAINING.md#wrong-bodies) recorded of them.

Every clause is proved, but a clause may say too little. So wrong bodies are written, which the prover must refuse. A refusal is of a *goal*, a statement to be proved, which is named for the clause that it is of. Each clause has one of three marks:

- **refused**: a wrong body is refused at a goal of this clause, and a right body of the same form is proved by the search, without a written proof of that goal.
- **open**: wrong bodies are refused, but each of them elsewhere, or in a form in which no right body is proved by itself. So the refusal may come from the form, and not from the mistake.
- **untried**: no wrong body was written for the clause, or none since its function changed.

A refusal shows only that no proof was found, and some goals that are refused are true. So `set_remove_removes_nothing` is refused at `content` too, which it keeps, since nothing that it calls ensures that. Two bodies have the same form if they have the same branches, loops and early returns. The mark is about the contract and the body as they were tried: a called function's contract or a definition may have changed since.

TOTALS

A clause is one of `ensures` of a public call, a ghost member of an impl, or a law of a trait. Not counted are LAWS clauses that mention neither a result nor a state afterwards, and CONTENT of the name `content`, which state the invariant of a map or a set. There are EDITS edits: LIBRARY wrong bodies of the library, WRONG wrong definitions, and CALLERS wrong bodies of callers. The gate tries GATE of them in each run, and the others are tried before a release.STALE

## The weakest

### Untried

UNTRIED_ROWS

### Open

Of a clause the first wrong body stands here, with why it doesn't show that the clause refuses it: it is refused *elsewhere*; the right body has another *form*; or the right body of that form is *open*, so that the prover doesn't prove it by itself.

Call | Clauses | What is wrong in the body | Refused at | Why open
---|---|---|---|---
OPEN_ROWS

## Comparisons and operations on sets

Call | Clauses | What is wrong in the body
---|---|---
HEADLINE_ROWS

## The other calls

Call | Clauses | What is wrong in the body
---|---|---
OTHER_ROWS

## Wrong definitions

A definition that says something else is refused at an example beside it, or at a law.

What is wrong | Refused at
---|---
DEFINITIONS

## Bodies that a program made

`rt plant` makes wrong bodies of a function's signature: they give up, or they call the function with an argument or the result changed. *Right* are those which mean what the function does. *Not judged* are those of which the prover couldn't tell, as where the unchanged call isn't proved by the search. They give no clause a mark.

File | Tried | Refused | Right | Not judged | Let through
---|--:|--:|--:|--:|--:
PLANTED
"""


def label_of(name):
    return name.rpartition(": ")[2] if ": " in name else ""


def is_law(clause):
    """Whether no body can break a clause: it mentions neither a result nor a state afterwards, or says the type's invariant."""
    is_ghost = label_of(clause.name) in {name for _, name, _, _ in clause.item.ghosts}
    return label_of(clause.name) == "content" or not is_ghost and not re.search(r"\bresult\b|\.(?:new|exit)\b", clause.text)


def is_of_library(edit):
    return edit.crate.rpartition("/")[2] in LIBRARY


def clause_in(goal):
    named = re.search(r"-clause-(\w+)", goal)
    return named[1] if named else ""


class Evidence:
    """The page, by API.md and its sources. What is amiss is added to `wrong`."""

    def __init__(self, api, wrong):
        self.api, self.rows = api, recorded()
        others = Sources(sorted({it.path.split("/")[1] for it in edits()} - {*LIBRARY}))
        clauses = {}
        for it in api.sources.clauses():
            if not it.item.path.endswith(("/slot.rt", "/hint.rt")):
                clauses.setdefault(it.name, it)
        known = {*clauses, *(it.name for it in [*others.clauses(), *api.sources.clauses(required=True)])}
        wrong += [f"{it.name}: no clause is {name}" for it in edits() for name in it.clauses if name not in known]
        self.clauses = {name: it for name, it in clauses.items() if not is_law(it)}
        self.laws = [label_of(it) for it in clauses if it not in self.clauses]
        self.sizes = collections.Counter(it.call for it in clauses.values())
        bodies = [it for it in edits() if it in self.rows and not it.is_of_definition]
        self.edits = {name: [it for it in bodies if name in it.clauses] for name in self.clauses}
        self.marks = {name: self.mark(name) for name in self.clauses}

    def refuses(self, edit, name):
        """Whether an edit is refused at a goal of a clause, in the call's own function."""
        clause, label = self.clauses[name], GHOSTS.get(label_of(name), label_of(name))
        own = "" if " for " in clause.call else clause.call.rpartition("::")[2]
        for function, _, goal in (it.rpartition("/") for it in self.rows[edit].goals if not it.startswith(WRITTEN)):
            is_named = clause_in(goal) == label or goal == f"{label}-value"
            is_alone = self.sizes[clause.call] == 1 and goal.startswith("returns") and not clause_in(goal)
            if (is_named or is_alone) and own in ("", function or own):
                return True
        return False

    def why_open(self, edit, name):
        """Why an edit that is refused doesn't show that its clause is, or nothing if it does."""
        if not self.refuses(edit, name):
            return "elsewhere"
        if edit.is_of_another_form:
            return "form"
        return "right body open" if edit.has_right and self.rows[edit].right != PROVED else ""

    def shows(self, edit, name):
        return not self.why_open(edit, name)

    def mark(self, name):
        shown = any(self.shows(it, name) for it in self.edits[name])
        return REFUSED if shown else OPEN if self.edits[name] else UNTRIED

    def linked(self, call):
        heading = self.api.heading(call)
        path = next(it.item.path for it in self.clauses.values() if it.call == call)
        return f"[`{call}`](../{f'{API}#{anchor(heading)}' if heading else path})"

    def ordered(self):
        """The calls, in the order of API.md."""
        order = [it for group in self.api.groups.values() for it in group]
        calls = dict.fromkeys(it.call for it in self.clauses.values())
        places = {it: place for place, it in reversed([*enumerate(order)])}
        return sorted(calls, key=lambda call: places.get(self.api.heading(call), len(order)))

    def of(self, call, *marks):
        return [name for name, it in self.clauses.items() if it.call == call and self.marks[name] in marks]

    def said(self, edit):
        wrong = edit.said("wrong")
        return f"[{wrong[:1].upper()}{wrong[1:]}](../{edit.path})"

    def labels(self, names):
        return ", ".join(f"`{label_of(it) or 'ensures'}`" for it in names)

    def by_edits(self, call):
        """The refused clauses of a call, together if the same edits show them."""
        rows = collections.defaultdict(list)
        for name in self.of(call, REFUSED):
            shown = [it for it in self.edits[name] if self.shows(it, name)]
            rows["; ".join(map(self.said, shown))].append(name)
        for what, names in rows.items():
            yield f"{self.linked(call)} | {self.labels(names)} | {what}"

    def open_rows(self):
        for call in self.ordered():
            rows = collections.defaultdict(list)
            for name in self.of(call, OPEN):
                rows[self.edits[name][0], self.why_open(self.edits[name][0], name)].append(name)
            for (edit, why), names in rows.items():
                goals = (f"`{it.removeprefix(WRITTEN).rpartition('/')[2]}`" for it in self.rows[edit].goals)
                yield f"{self.linked(call)} | {self.labels(names)} | {self.said(edit)} | {', '.join(goals)} | {why}"

    def untried_rows(self):
        cells = [f"{self.linked(call)} {self.labels(names)}" for call in self.ordered() if (names := self.of(call, UNTRIED))]
        return "- " + "\n- ".join(cells) if cells else "None."

    def totals(self):
        calls = {it.call for it in self.clauses.values()}
        of = {"comparisons and operations on sets": {*HEADLINE}, "the other calls": calls - {*HEADLINE}, "all calls": calls}
        yield "Clauses of | Refused | Open | Untried | All\n---|--:|--:|--:|--:"
        for title, those in of.items():
            count = collections.Counter(self.marks[name] for name, it in self.clauses.items() if it.call in those)
            yield f"{title} | {count[REFUSED]} | {count[OPEN]} | {count[UNTRIED]} | {sum(count.values())}"

    def definitions(self):
        for edit in (it for it in edits() if it in self.rows and it.is_of_definition):
            yield f"{self.said(edit)} | {', '.join(f'`{it}`' for it in self.rows[edit].goals)}"

    def text(self):
        stale = [f"`{it.name}`" for it in edits() if it not in self.rows]
        said = {
            "TOTALS": "\n".join(self.totals()),
            "LAWS": str(len(self.laws) - self.laws.count("content")),
            "CONTENT": str(self.laws.count("content")),
            "GATE": str(sum(it.is_of_gate for it in edits())),
            "EDITS": str(len(edits())),
            "LIBRARY": str(sum(is_of_library(it) and not it.is_of_definition for it in edits())),
            "WRONG": str(sum(it.is_of_definition for it in edits())),
            "CALLERS": str(sum(not is_of_library(it) for it in edits())),
            "STALE": f"\n\nThese {len(stale)} weren't tried since they or their functions changed: {', '.join(stale)}." if stale else " All were tried as their functions stand.",
            "UNTRIED_ROWS": self.untried_rows(),
            "OPEN_ROWS": "\n".join(self.open_rows()),
            "HEADLINE_ROWS": "\n".join(row for call in HEADLINE for row in self.by_edits(call)),
            "OTHER_ROWS": "\n".join(row for call in self.ordered() if call not in HEADLINE for row in self.by_edits(call)),
            "DEFINITIONS": "\n".join(self.definitions()) or "none was tried since its definition changed |",
            "PLANTED": "\n".join(planted_rows()) or "none was tried since its file changed | | | | |",
        }
        return re.sub(r"\b(?:" + "|".join(sorted(said, key=len, reverse=True)) + r")\b", lambda it: said[it[0]], HEAD)
