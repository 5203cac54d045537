"""What the sources of some crates have: public types, calls and clauses, under the names that a user has for them. Nothing else
in tools/ reads the text of Rattle, but for single words. tools/trials/sources.py tries it."""
import collections
import glob
import os
import re
from itertools import takewhile

LIBRARY = ["micromap_walk", "micromap_core", "micromap"]
PROOFS = ("laws", "equal_keys_match_alike", "matching_keys_are_equal")  # ghost members of an impl that state nothing
TYPES = ("struct", "enum", "type", "trait")
Block = collections.namedtuple("Block", "above code first")
Function = collections.namedtuple("Function", "name head doc clauses")
Item = collections.namedtuple(
    "Item", "kind name trait whom bounds head body doc derives ghosts types functions path imports"
)
# The name is that by which an edit names the clause, as `Map::insert: old`.
Clause = collections.namedtuple("Clause", "call name text item")


def read(path):
    with open(path, encoding="utf-8") as file:
        return file.read()


def write(path, text):
    with open(path, "w", encoding="utf-8") as file:
        file.write(text)


def doc_of(lines):
    return "\n".join(line.strip()[3:].removeprefix(" ") for line in lines.split("\n") if line.strip().startswith("///"))


def depths(text):
    """The signs of a text, each with the number of brackets around what follows it."""
    depth = 0
    for before, sign in zip(f" {text}", text):
        depth += (sign in "<([") - (sign in ">)]" and before + sign not in ("->", "=>"))
        yield sign, depth


def parts(text):
    """What stands between the commas of a text that are in no brackets."""
    marked = "".join("\n" if sign == "," and depth == 0 else sign for sign, depth in depths(" ".join(text.split())))
    return [it.strip() for it in marked.split("\n") if it.strip()]


def given_in(head):
    """The parameters in the brackets `<>` that a head begins with, and the rest."""
    end = next((at for at, (_, depth) in enumerate(depths(head)) if depth == 0), 0)
    return (head[1:end], head[end + 1 :].lstrip()) if head.startswith("<") else ("", head)


def without_comments(code):
    return re.sub(r"^ *(?://|--).*\n", "", code, flags=re.M)


def blocks(text, margin=""):
    """The functions, types, traits and impls at a margin, each with the comments and attributes above it, and with the number
    of its first line, counted from 0."""
    lines = text.split("\n")
    begins = re.compile(rf"{margin}(?:pub(?:\([^)]*\))? |const )*(?:fn|struct|enum|type|trait|impl|const)\b")
    for at in (at for at, line in enumerate(lines) if begins.match(line)):
        above = [*takewhile(re.compile(rf"{margin}(?://|#\[)").match, reversed(lines[:at]))]
        is_open = False
        for last, line in enumerate(lines[at:], at):
            is_open |= line.endswith("{")
            if line == f"{margin}}}" or not is_open and re.search(r"[;}]$" if last == at else r";$|\{\}$", line):
                break
        yield Block("".join(f"{it}\n" for it in reversed(above)), "\n".join(lines[at : last + 1]), at)


def name_of(block):
    """The name of a function or a type; of an impl that of its type."""
    return re.match(r"(?:pub )?(?:impl(?:<.*?>)? (?:.* for )?|(?:const )?\w+ )(\w+)", block.code)[1]


def line_of(text, name):
    """The number of the line at which a public function or type begins, or 0."""
    found = re.search(rf"^ *pub (?:fn|struct|enum|type) {name}\b", text, re.M)
    return text[: found.start()].count("\n") + 1 if found else 0


def around(text, part):
    """The function around a part of a text, with its contract, or else the item around it, without comments. All, if there is
    none."""
    outer = [it for it in blocks(text) if part in it.code]
    inner = [it for one in outer for it in blocks(one.code, "    ") if part in it.code]
    return [without_comments(it) for it in [it.code for it in inner or outer] or [text]]


def branches(lines):
    """What some lines do besides computing: a branch, a loop, an early return."""
    words = r"\b(?:if|else|match|while|for|loop|return|break)\b|=>|&&|\|\||\?"
    return sorted(it for line in lines for it in re.findall(words, line))


def bodies(text):
    """The lines of a source but for comments, imports, contracts and attributes."""
    return [it for it in text.split("\n") if not re.match(r" *(//|#|use |pub use |ghost |ensures|requires|$)", it)]


def antt_of(code):
    """The lines of some code that are antt: clauses, ghost members and lines `ghost use`."""
    found = re.finditer(r"^( *)(?:requires|ensures|ghost)\b.*(?:\n\1 .*)*", code, re.M)
    return "\n".join(re.sub(r"^ *ensures\*? \w+", "", it[0]) for it in found)


def needed(name, items):
    """The items of a name, with the functions that they call and the types that they name, and so on, in order."""
    taken, left = [], [it for it in items if name_of(it) == name]
    while left:
        taken.append(left.pop())
        code = re.sub(r"^ *(?:pub )?fn \w+", "", taken[-1].code, flags=re.M)
        calls = {*re.findall(r"(?<![\w.:])(\w+)(?:::<[^;]*?>)?\(", code)}
        words = calls | {it for it in re.findall(r"\w+", code) if not it.islower()}
        left += [it for it in items if it not in taken + left and name_of(it) in words]
    return sorted(taken, key=items.index)


def is_named(word, text):
    """Whether a text has a word, or the signs of an operator, which stand in the place of the gaps `◌`."""
    signs = [it for it in word.split("◌") if it]
    if "◌" in word:
        return all(it in re.split(r"[\s()]+", text) for it in signs)
    return bool(re.search(rf"(?<!\w){re.escape(word)}(?!\w)", text))


def head_of(text, items):
    """The line `tactic` of a source, and those of its imports that some of its items name."""
    code, lines = "\n".join(it.code for it in items), []
    for line in text.split("\n"):
        found = re.fullmatch(r"((?:ghost )?use .*(?:\.|::))(?:\{(.*)\}|(\w+));", line)
        if not found:
            lines += [line] if re.match(r"#!\[|$", line) else []
            continue
        is_ghost = line.startswith("ghost")
        names = [it for it in (found[2] or found[3]).split(", ") if is_named(it, antt_of(code) if is_ghost else code)]
        listed = names[0] if len(names) == 1 and not is_ghost else f"{{{', '.join(names)}}}"
        lines += [f"{found[1]}{listed};"] if names else []
    return re.sub(r"\n{3,}", "\n\n", "\n".join(lines)).strip()


def with_module(text, line):
    """A source with a line `mod`, in order among those like it, or else behind its head."""
    lines = text.split("\n")
    alike = [n for n, it in enumerate(lines) if re.fullmatch(r"(?:pub )?mod \w+;", it)]
    if line in lines or f"pub {line}" in lines:
        return text
    if alike:
        later = (n for n in alike if lines[n].split("mod ")[1] > line.split("mod ")[1])
        lines.insert(next(later, alike[-1] + 1), line)
    else:
        head = next((n for n, it in enumerate(lines) if not re.match(r"//!|#!\[", it)), len(lines))
        lines[head:head] = ["", line]
    return "\n".join(lines)


def imports_in(text):
    """The names that a text of Rattle or antt imports, with their modules, and its lines without imports and indentation."""
    at = r"^ *(?:pub )?(?:ghost )?use ([^;{}\n]*?)(?:::|\.)?(?:\{([^}]*)\}|(\w+))( as \w+)?;?\n"
    uses = (it for it in re.findall(at, text, re.M) if it[3] != " as goal")
    found = [(module, names or name) for module, names, name, _ in uses]
    names = {(module, it.split(" as ")[0].strip()) for module, names in found for it in names.split(",") if it.strip()}
    return names, re.sub(r"^ +| +$", "", re.sub(at, "", text, flags=re.M), flags=re.M)


def function_in(block):
    """A function, with its signature on one line, and its clauses."""
    code = without_comments(block.code)
    name, text = re.match(r".*?\bfn (\w+)(.*?)(?:\n *\{\n|(?<! record) \{\n|;$|$)", code, re.S).groups()
    head, *rest = re.split(r"\n *(?=requires\b|ensures\b)", text)
    head = re.sub(r"\s+", " ", head).replace("( ", "(").replace(", )", ")")
    clauses = [re.match(r"(requires|ensures\*?)(?: (\w+))? \{ (.*) \}$", " ".join(it.split())).groups("") for it in rest]
    return Function(name, "fn " + name + re.sub(r"\bmut (?=\w+:)", "", head), doc_of(block.above), clauses)


def whose(head):
    """The trait, the type and the type's first word of the head of an impl, and the bounds that are shown."""
    given, rest = given_in(head)
    trait, _, whom = rest.rpartition(" for ")
    needs = [it for it in parts(given) if ": " in it and not it.startswith("const")]
    needs = [re.sub(r"(?<=^[KRT]: )Eq(?: \+ |$)", "", it) for it in needs]
    return trait, whom, re.search(r"\w+", re.sub(r"'\w+", "", whom))[0], [it for it in needs if not it.endswith(": ")]


def items_of(path):
    """The public types, traits and functions of a source, and its impls with their public functions."""
    text, imports = read(path), {}
    for module, names in re.findall(r"ghost use Rattle\.([\w.]+)\.\{([^}]*)\}", text):
        imports.update((it.split(" as ")[-1].strip(), module) for it in names.split(","))
    for it in blocks(text):
        found = re.match(r"(?:pub (struct|enum|type|trait|fn)|(impl))\b(.*)", it.code.replace("fmt::", ""), re.S)
        if not found:
            continue
        kind, body = found[1] or found[2], found[3]
        head = " ".join(re.match(r"[^{]*" if kind in ("impl", "trait") else r"[^{;]*", body)[0].split())
        trait, whom, name, bounds = whose(head) if kind == "impl" else ("", "", re.match(r"\w*", head)[0], [])
        public = rf" *{'' if trait or kind == 'trait' else 'pub '}(?:const )?fn "
        functions = [function_in(one) for one in ([it] if kind == "fn" else blocks(body, "    ")) if re.match(public, one.code)]
        derives = re.findall(r"\w+", "".join(re.findall(r"#\[derive(\(.*\))\]", it.above)))
        member = r"((?:^    ///[^\n]*\n)*)^    ghost (?!use\b)(\w+)( =|:) \{ (.*?) \};$"
        ghosts = [(*it[:3], " ".join(it[3].split())) for it in re.findall(member, body, re.M | re.S)]
        ghosts = [it for it in ghosts if kind == "trait" or it[1] not in PROOFS]
        types = re.findall(r"^    (type .*);$", body, re.M)
        yield Item(kind, name, trait, whom, bounds, head, body, doc_of(it.above), derives, ghosts, types, functions, path, imports)


class Sources:
    """The items of some crates, by the names that a user has for them."""

    def __init__(self, crates):
        paths = (sorted(glob.glob(f"crates/{it}/src/**/*.rt", recursive=True)) for it in crates)
        self.items = [it for found in paths for path in found if "/tests" not in path for it in items_of(path)]
        self.aliases = {}
        for it in self.items:  # the aliases are as `Entry<'a, K, V, N>` for `EntryIn<'a, K, Map<K, V, N>>`
            means = re.match(r"(\w+)<(.*)> = ((\w+In)<.*>)$", it.head.replace("< ", "<").replace(", >", ">"))
            if it.kind == "type" and means:
                names = ", ".join(re.sub(r"const (\w+).*", r"\1", part) for part in parts(means[2]))
                self.aliases[means[4]] = (means[1], f"{means[1]}<{names}>", means[3])
        self.types = {self.owner(it) for it in self.items if it.kind in TYPES} | {"K"}

    def owner(self, item):
        return self.aliases.get(item.name, (item.name,))[0]

    def public(self, text):
        """A text with the public name of each type that has one."""
        for name, (_, used, means) in self.aliases.items():
            text = re.sub(rf"\b{name}<[^<>]*>", used, text.replace(means, used))
        return text

    def call(self, item, function=None):
        """The name of an impl of a trait, a call or a type. A free call of another crate has its module before it."""
        if item.trait:
            return f"{item.trait.partition('<')[0]} for {self.owner(item)}"
        if function and item.kind != "fn":
            return f"{self.owner(item)}::{function.name}"
        crate, module = re.search(r"(\w+)/src/(?:.*/)?(\w+)\.rt$", item.path).groups()
        is_bare = item.kind != "fn" or crate in LIBRARY or module in ("lib", "main")
        return ("" if is_bare else f"{module}::") + item.name

    def clauses(self, required=False):
        """Each public clause that is ensured, or each that is required. A ghost member of an impl is a clause of it, and a
        law of a trait is one of the trait."""
        for it in self.items:
            if it.trait == "Model" or (self.owner(it) not in self.types and it.kind != "fn"):
                continue
            states = [(self.call(it), name, text) for _, name, _, text in it.ghosts if not name.startswith("can_")]
            states = [one for one in states if not required and (it.kind != "trait" or "≡" in one[2])]
            for function in it.functions:
                wanted = ((label, text) for kind, label, text in function.clauses if (kind == "requires") == required)
                unnamed = function.name if it.trait else ""
                states += [(self.call(it, function), label or unnamed, text) for label, text in wanted]
            yield from (Clause(call, f"{call}: {name}".removesuffix(": "), text, it) for call, name, text in states)


def exported(path):
    """The words of the public lines `use` and `mod` of a source."""
    return {*re.findall(r"\w+", " ".join(re.findall(r"^pub (?:use|mod) ([^;]*);", read(path), re.M)))}


def import_of(item):
    """The path by which a user imports an item, or nothing where there is none: from the root or from one of its modules."""
    top = exported("crates/micromap/src/lib.rt")
    if item.name in top:
        return f"micromap::{item.name}"
    module, name = re.match(r"crates/\w+/src/(\w+)", item.path).group(0, 1)
    is_there = item.path == f"{module}.rt" or item.name in exported(f"{module}.rt")
    return f"micromap::{name}::{item.name}" if name in top and is_there else ""


def spec_of(module):
    """The file of a module of definitions, or nothing where it isn't of these crates."""
    crate, _, rest = module.partition(".specs.")
    paths = [f"crates/{it}/specs/{rest.replace('.', '/')}.antt" for it in (crate, "micromap_core")]
    return next((it for it in paths if crate.startswith("micromap") and os.path.exists(it)), "")


def anchor(heading):
    """The anchor of a heading, as GitHub forms it."""
    return re.sub(r"[^\w\- ]", "", re.sub(r"\[(.*?)\]\(.*?\)", r"\1", heading).strip().lower()).replace(" ", "-")
