"""crates/micromap/API.md: each public type and call with its contract, and where the words of the contracts are defined.

Written there by hand are the sections with their headings, and the text of each section up to its first row, call or block."""
import collections
import re

from pages.sources import TYPES, anchor, import_of, parts, read
from pages.vocabulary import index

API = "crates/micromap/API.md"
# The traits of a map or a set whose impls stand at a call. Of those in REPEATED the call's text says that they do the same.
REPEATED = {"Default": "new", "Index": "index", "IndexMut": "index_mut"}
STANDS = REPEATED | {"PartialEq": "eq_with", "Clone": "clone"}
AT = {f"{trait} for {owner}": f"{owner}::{call}" for owner in ("Map", "Set") for trait, call in STANDS.items()}
BY_PROBE = ": by probe"  # how the title of a section of calls ends whose names are those of other calls and `_by`
# The calls of sets that do with items what those of maps do with pairs, by the sections at whose head they share a block.
AS_OF_MAPS = {
    "Set: look up": ["fits", "first", "last", "len", "is_empty", "capacity"],
    "Set: remove": ["pop_first", "pop_last", "clear"],
    "Set: build and convert": ["from_fitting", "into_capacity", "copied", "into_text_bufs", "into_strings"],
}
# The clauses that stand at the end, with their sections there.
ENDS = {"content": "The content of a map or a set", "writes_back": "Written through a reference"}
# A section: its heading, and what is written by hand, which ends at a row, a call or a block.
SECTION = r"^## (.+?)$(.*?(?:^---\|.*?$|(?=^##|^```|\Z))).*?(?=^## |\Z)"
# Members of impls that state nothing, or what the trait states, or the same of all iterators of set operations.
UNSHOWN = ("total", "matches_partial_cmp", "matches_eq", "clones_are_equal", "remaining", "lower", "upper")
# What no text says of a precondition, and how a text says that there is one, and what is compared.
UNSAID, REQUIRES = r"\.pre\b|\.FnMut\b", r"\bRequires\b|, and requires the same\b"
EQUALITY, NO_SCAN = r"\b[KT]\.eq\b", r"\b(?:IsContent|IsItems|ClonesAreEqual) [KT]\.eq\b"
COMPARES = r"\bscans?\b|\bcompares?\b|\bcosts? what\b|\blooks up\b|\btwo keys are equal\b"


def shown(clause):
    """Whether a clause is shown at its call."""
    kind, label, text = clause
    return label not in ENDS and label not in UNSHOWN and not (kind == "requires" and re.match("IsSound |I.can_next ", text))


def signature(function, where=()):
    """The lines of a function's signature and of its clauses."""
    head, _, own = function.head.partition(" where ")
    clauses = (f"{kind} {label}".strip() + f": {text}" for kind, label, text in filter(shown, function.clauses))
    return [head, *bounds([*where, *parts(own)]), *(f"    {it}" for it in clauses)]


def bounds(given):
    """The line `where` of bounds without those of `Drop`, if one is left."""
    kept = (re.sub(r"(?<=[:+]) Drop\b(?: \+)?|\s*\+ Drop\b", "", it) for it in given)
    left = ", ".join(it for it in kept if not it.endswith(":"))
    return [f"where {left}"] if left else []


def is_repeated(call):
    return call in AT and call.split(" for ")[0] in REPEATED


def is_of_sets(item):
    """Whether an item is of an iterator of a set operation. What these share is said of all."""
    return "/set/operations/" in item.path


def said_above(doc):
    """The lines of a doc comment above a member."""
    return [f"/// {line}".rstrip() for line in doc.strip().split("\n") if doc]


def members(item):
    """The types, the ghost members and the functions of an impl or a trait."""
    of_trait = item.kind == "trait"
    yield from (f"    {it}" for it in item.types if not is_of_sets(item))
    for docs, name, _, text in item.ghosts:
        yield from (f"    {line.strip()}" for line in docs.split("\n") if line)
        if of_trait or name not in UNSHOWN:
            yield f"    ghost {name}: {text}"
    for it in item.functions:
        yield from (f"    {line}" for line in said_above(it.doc) if of_trait)
        yield from (f"    {line}" for line in signature(it) if of_trait or any(map(shown, it.clauses)))


def prose(doc):
    """The paragraphs of a doc comment, each on one line, and its blocks."""
    pieces = re.split(r"(^```.*?^```$)|\n\n+", doc, flags=re.M | re.S)
    pieces = [it for it in pieces if it and it.strip()]
    return [" ".join(it.split()) for it in pieces if it[:3] != "```"], [it for it in pieces if it[:3] == "```"]


class Api:
    """The entries of API.md by their headings: pieces of a doc comment, code and the item of both. What is amiss is added to
    `wrong`."""

    def __init__(self, sources, wrong):
        self.sources, self.wrong, self.views = sources, wrong, {}
        self.entries, self.traits = collections.defaultdict(list), collections.defaultdict(list)
        self.ends = {label: collections.defaultdict(list) for label in ENDS}
        for it in sources.items:
            is_inner = it.path.startswith("crates/micromap_walk/") or it.path.endswith("set/iter.rt") and it.kind == "type"
            if not is_inner and (it.kind != "impl" or self.subject(it) in sources.types):
                self.take(it)
        self.places = dict(AT)
        self.groups = self.grouped()
        self.places["EqualClone for Set"] = "EqualClone"

    def subject(self, item):
        """The type that an impl is of, or is `From` if that type is the standard library's."""
        owner, made_of = self.sources.owner(item), re.fullmatch(r"From<(\w+)>", item.trait or "")
        return made_of[1] if made_of and owner not in self.sources.types else owner

    def take(self, item):
        owner, functions = self.subject(item), item.functions
        if item.trait == "Model":
            self.views[owner] = item
        elif item.trait and not item.ghosts and not any(it.clauses for it in functions):
            self.traits[owner].append(item.trait)
        elif item.trait:
            self.take_impl(item, owner)
        elif item.kind in ("impl", "fn"):
            is_of_all = not re.match("(?:Map|Set)<(?!K, V, N>|T, N>)", item.whom)
            where = item.bounds if is_of_all else [f"Self = {item.whom}", *item.bounds]
            for it in functions:
                self.entries[self.sources.call(item, it)].append((it.doc, signature(it, where), item))
        else:
            self.traits[owner] += item.derives
            if item.name not in self.sources.aliases:
                self.entries[self.sources.call(item)].append((item.doc, [] if is_of_sets(item) else self.type_of(item), item))
        for it in functions:
            for _, label, text in it.clauses:
                if label in ENDS:
                    self.ends[label][text].append(self.sources.call(item, it))

    def take_impl(self, item, owner):
        """Adds an impl of a trait to its type, or to a call of a map or a set, or by itself."""
        call, trait = self.sources.call(item), item.trait.partition("<")[0]
        of_trait = owner in ("K", "Map", "Set") and trait in self.sources.types
        is_alone = owner in ("Map", "Set") and call not in AT and not of_trait
        doc, above = "", []
        if is_alone:
            doc = item.doc or "\n\n".join(it.doc for it in item.functions if it.doc)
        elif trait != "PartialEq" or call not in AT:
            above = said_above(item.doc)
        head = f"impl {item.trait} for {self.sources.public(item.whom)}"
        code = [*above, head, *bounds(item.bounds), *members(item)]
        at = trait if of_trait else call if is_alone else AT.get(call, owner)
        if not is_repeated(call) and not (trait == "Clone" and is_of_sets(item)):
            self.entries[at].append((doc, code, item))

    def type_of(self, item):
        """A type as a user sees it: its variants or its public fields, or the whole of a trait."""
        named = (it for it in self.sources.items if it.kind in ("struct", "enum") and self.sources.owner(it) == item.name)
        held, head = next(named, item), item.head.partition(" = ")[0]
        if item.kind == "trait":
            return [f"pub {held.kind} {head}", *members(item)]
        fields = re.findall(r"(?:^    ///.*\n)*^    (?:pub (?!\().*|[A-Z].*),$", held.body, re.M)
        rest = [*self.sources.public("\n".join(fields)).split("\n"), "}"] if fields else []
        return [f"pub {held.kind} {head}" + (" {" if fields else ";"), *rest]

    def grouped(self):
        """The calls and types of each section, by its headings, with those that stand there. The calls of a type of which none
        has a heading stand at the type."""
        rest = re.split(r"^## (.*)\n", read(API), flags=re.M)[1:]
        headed = {title: re.findall(r"^### `(.*)`$", text, re.M) for title, text in zip(rest[::2], rest[1::2])}
        for title, names in AS_OF_MAPS.items():
            headed[title] += [f"Set::{it}" for it in names]
            self.places |= {f"Set::{it}": title for it in names}
        listed = [it for names in headed.values() for it in names]
        for title in (it for it in headed if it.endswith(BY_PROBE)):
            start = title.replace(BY_PROBE, "::")
            headed[title] = [f"{it}_by" for it in listed if it.startswith(start) and f"{it}_by" in self.entries]
            self.places |= dict.fromkeys(headed[title], title)
        apart = {it.partition("::")[0] for it in listed if "::" in it}
        owners = {it: it.partition("::")[0] for it in self.entries if "::" in it}
        self.places |= {it: owner for it, owner in owners.items() if owner not in apart}
        self.wrong += [f"{API}: no source has {it}" for it in listed if it not in self.entries]
        times = {it: listed.count(it) for it in self.entries if it not in self.places}
        self.wrong += [f"{API}: {it} has {count} headings" for it, count in times.items() if count != 1]
        inner = collections.defaultdict(list)
        for it, place in self.places.items():
            inner[place].append(it)
        groups = {title: [at for it in names if it in self.entries for at in (it, *inner[it])] for title, names in headed.items()}
        return {title: group for title, group in groups.items() if group}

    def heading(self, call):
        """The heading of a call, or of its type, if API.md has it."""
        of_type = [call.split(" for ")[-1], call.split("::")[0]]
        return next((it for it in (self.places.get(call, call), *of_type) if it in self.entries or it in self.groups), "")

    def facts(self, name):
        """The path of an import, what a contract sees of a type, and its traits without a contract."""
        items = [it for _, _, it in self.entries[name] if it.kind in (*TYPES, "fn")]
        self.wrong += [f"{it.path}: {name} has no public path" for it in items if not import_of(it)]
        paths = [import_of(it) for it in items if not is_of_sets(it)]
        yield from (f"Imported as `{it}`." for it in paths if it != f"micromap::{name}")
        if name in self.views:
            yield f"In clauses: `{self.sources.public(self.views[name].ghosts[0][3])}`."
        traits = [f"`{it}`" for it in self.traits[name]]
        stated = {it.trait.partition("<")[0] for it in self.sources.items if it.trait and self.subject(it) == name}
        stated = [f"`{it}`" for it in sorted(stated - {"Model", *self.traits[name]}) if name in ("Map", "Set")]
        if traits and not any(map(is_of_sets, items)):
            more = f", and with contracts {', '.join(stated)}" if stated else ""
            yield f"Implements {', '.join(traits)}{more}."

    def text(self):
        """The page, with what is written there by hand."""
        page, made = read(API), {"Every call": [self.row(*it) for it in self.groups.items()]}
        made |= {title: self.group(title, names) for title, names in self.groups.items()}
        made |= {title: self.end(label) for label, title in ENDS.items()} | {"Words": index(self.texts(), self.wrong)}
        self.wrong += [f"{API} has no section {it}" for it in made if f"\n## {it}\n" not in page]
        self.check(page)

        def filled(found):
            return "\n".join([f"## {found[1]}{found[2].rstrip()}", *made.get(found[1], ()), "", ""])

        return re.sub(SECTION, filled, page, flags=re.M | re.S).strip() + "\n"

    def group(self, title, names):
        """The lines of a group."""
        shared = [it for it in names if self.places.get(it) == title]
        own = [it for it in names if it in self.entries and it not in self.places]
        block = self.blocks(shared, shared if title in AS_OF_MAPS else ()) if shared else ()
        return [*block, *(line for it in own for line in self.section(it))]

    def row(self, title, names):
        """The row of a group: links to its calls, those behind the others that require something."""
        cells = {False: [], True: []}
        for it in names:
            place, name = self.places.get(it, it), it.partition(" for ")[0].removeprefix(title.partition(": ")[0] + "::")
            requires = re.search(REQUIRES, self.doc(AT[it] if is_repeated(it) else it))
            cells[bool(requires)].append(f"[`{name}`](#{anchor(place)})")
        return f"[{title}](#{anchor(title)}) | {' | '.join(', '.join(it) for it in cells.values())}".rstrip()

    def doc(self, name):
        return "\n\n".join(it for it, _, _ in self.entries.get(name, ()) if it)

    def code(self, name):
        pieces = sorted(self.entries[name], key=lambda it: bool(it[2].trait))
        return "\n\n".join("\n".join(it) for _, it, _ in pieces if it)

    def blocks(self, names, documented=()):
        """The code of some calls in one block, with the text above it of those that are documented here, and their examples."""
        pieces = []
        for it in names:
            above = said_above("\n\n".join(self.said(it))) if it in documented else []
            lines = self.code(it).split("\n")
            pieces.append("\n".join([*above, *(lines[:1] if "requires the same" in self.doc(it) else lines)]))
        yield from ("", "```rust", "\n\n".join(pieces), "```")
        yield from (f"\n{it}" for name in names for it in prose(self.doc(name))[1])

    def said(self, name):
        """The paragraphs of a call or a type, but for what the page says of all at its end."""
        return [it for it in prose(self.doc(name))[0] if "clause `content`" not in it]

    def section(self, name):
        """What is said of a call or a type, its code and its examples, with those of the calls that stand there."""
        inner = [it for it in self.entries if self.places.get(it) == name]
        said = [*self.said(name), " ".join(self.facts(name))]
        return ["", f"### `{name}`", "", "\n\n".join(filter(None, said)), *self.blocks([name, *inner], inner)]

    def check(self, page):
        """Adds what texts don't say: what `content` states, that a call requires something, or how often it compares."""
        content = next(it for it in prose(self.doc("Map::len"))[0] if "`content`" in it)
        if content not in page:
            self.wrong.append(f"{API} doesn't have what the text of Map::len says of `content`")
        for name in (it for it, pieces in self.entries.items() if not any(item.kind in TYPES for _, _, item in pieces)):
            doc, code, path = self.doc(name), self.code(name), self.entries[name][0][2].path
            required = [it for it in re.findall("^ *requires.*", code, re.M) if not re.search(UNSAID, it)]
            if bool(required) != bool(re.search(REQUIRES, doc)):
                self.wrong.append(f"{path}: the text of {name} doesn't say what it requires, or says it and no clause does")
            is_keyed = re.search(r"\b(?:key|item|probe|items): ", code.split("\n")[0])
            said = doc + self.doc(name.partition("::")[0]) if "Entry::" in name else doc
            if not is_keyed and re.search(EQUALITY, re.sub(NO_SCAN, "", code)) and not re.search(COMPARES, said):
                self.wrong.append(f"{path}: nothing says how often {name} compares")

    def end(self, label):
        """The rows of a clause that many calls have."""
        changing = [it for it in self.entries if re.match("(?:Map|Set)::", it) and "(&mut self" in self.entries[it][0][1][0]]
        rows = collections.defaultdict(list)
        for text, calls in self.ends[label].items():
            text = re.sub(r"^sem 𝓛 \((.*)\)$", r"\1", text).replace("K.row V.row N.row K.eq ", "")
            text = text.replace("T.eq", "K.eq").replace("AreItems", "AreContents").replace("IsItems", "IsContent")
            rows[text] += calls
        for text, names in rows.items():
            others = [it for it in changing if it not in names]
            are_most = len(others) < len(names)
            cell = ", ".join(f"`{it}`" for it in (others if are_most else names))
            but = "each of a map or a set by `&mut self`, but " if are_most else ""
            yield f"`{text}` | {but}{cell}"

    def texts(self):
        """Each piece of code, each clause and each view, with the imports of its file."""
        for _, code, item in (it for pieces in self.entries.values() for it in pieces):
            yield "\n".join(it for it in code if not it.lstrip().startswith("///")), item.imports
            yield from ((text, item.imports) for function in item.functions for _, _, text in function.clauses)
        yield from ((it.ghosts[0][3], it.imports) for it in self.views.values())
