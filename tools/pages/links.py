"""The links of documents, and the laws that PROVING.md names."""
import functools
import glob
import os
import re

from pages.sources import LIBRARY, anchor, read

HOME = "micromap's own repository"  # what a copied document says of a file that isn't copied
PROVING = "crates/micromap/PROVING.md"
FOR_CALLERS = "-- For callers: "  # how a file of laws begins whose names stay


def prose(text):
    """A text without its blocks."""
    return re.sub(r"^```.*?^```$", "", text, flags=re.M | re.S)


@functools.cache
def anchors_of(path):
    """The anchors in a page, and those of the lines of another file."""
    if not path.endswith(".md"):
        return {f"L{number}" for number in range(1, read(path).count("\n") + 1)}
    text = prose(read(path))
    return {*map(anchor, re.findall(r"^#+ (.*)$", text, re.M)), *re.findall(r'^<a id="(.*?)"></a>$', text, re.M)}


def dead_links(document, top="."):
    """What is amiss in the links of a document of a repository: the files, headings and names of code that aren't there."""
    for name, where in re.findall(r"\[`(\w+)`\]\(([^)\s]+\.rt)\)", read(f"{top}/{document}")):
        path = os.path.join(top, os.path.dirname(document), where)
        if os.path.exists(path) and not re.search(rf"\b{name}\b", read(path)):
            yield f"{document}: {where} has no {name}"
    for where in re.findall(r"\]\(([^)\s]+)", re.sub(r"`[^`\n]*`", "", prose(read(f"{top}/{document}")))):
        path, _, at = where.partition("#")
        path = os.path.normpath(os.path.join(top, os.path.dirname(document), path) if path else f"{top}/{document}")
        if not re.match(r"\w+:", where) and (not os.path.exists(path) or (at and at not in anchors_of(path))):
            yield f"{document}: the link {where} leads nowhere"


def wrong_of_laws():
    """What is amiss in the laws: a file doesn't say whom they are for, or a file or PROVING.md names what it must not."""
    for path in sorted(glob.glob("crates/*/proofs/Laws/*.antt")):
        if not read(path).startswith((FOR_CALLERS, "-- For proofs: ")):
            yield f"{path}: its first comment doesn't say whether its laws are for callers or for proofs"
    for path in sorted(glob.glob("crates/micromap*/proofs/**/*.antt", recursive=True)):
        yield from (f"{path}: {it} {why}" for it, why in wrong_imports(path))
    known = {it for path in glob.glob("crates/micromap*/**/*.antt", recursive=True) for it in re.findall(r"[\w'≢-]+", read(path))}
    rows = "\n".join(it for it in read(PROVING).split("\n") if re.match(r"[^-#].* \| ", it))
    named = re.findall(r"`([\w'≢]+[_-][\w'≢-]+)`", rows)
    yield from (f"{PROVING}: a table names {it}, which is no law" for it in named if it not in known)


def wrong_imports(path):
    """What a file of proofs imports that it must not, and why. A fact about words stands on words alone. A proof takes what is
    known in another crate from its laws, and outside of the library from those for callers."""
    crate = path.split("/")[1]
    for base, names in re.findall(r"^(?:pub )?use ([^\s{]+)(?:\{(.*)\})?", read(path), re.M):
        for it in (f"{base}{name.strip()}" for name in names.split(",")):
            of_lemmas = re.match(r"Rattle\.(micromap\w*)\.proofs\.(?:Laws\.(\w+))?", it)
            if "/proofs/Laws/" in path and re.search(r"arrayvec|serde_json|\.specs\.contracts\.|(?<!Rattle\.std)\.specs\.declared\.", it):
                yield it, "is of the code, and this file of the words"
            elif not of_lemmas or it.startswith("Rattle.micromap.proofs.Rules."):
                continue
            elif not of_lemmas[2] and (of_lemmas[1] != crate or "/proofs/Laws/" in path):
                yield it, "isn't in proofs/Laws"
            elif of_lemmas[2] and crate not in LIBRARY:
                files = glob.glob(f"crates/*/proofs/Laws/{of_lemmas[2]}.antt")
                yield from ((it, "isn't for callers") for file in files if not read(file).startswith(FOR_CALLERS))
