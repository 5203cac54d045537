"""What `rt plant` found, by the files of the library."""
import collections
import hashlib
import os
import re

from pages.sources import read, write

PLANTED = "docs/planted.tsv"
# The kinds of bodies that `rt plant` prints, by the columns of the page.
COLUMNS = {"refused": ["refused"], "right": ["same"], "not judged": ["not-judged", "elsewhere"], "let through": ["proves", "no-ensures"]}


def sum_of(path):
    """A sum of a source without its comments."""
    return hashlib.sha256(re.sub(r"^ *//.*\n", "", read(path), flags=re.M).encode()).hexdigest()[:10]


def recorded():
    """The cells of each file that stands as it was planted."""
    lines = (line.split("\t") for line in read(PLANTED).splitlines()) if os.path.exists(PLANTED) else ()
    return {path: cells for path, sum, *cells in lines if os.path.exists(path) and sum_of(path) == sum}


def keep(logs):
    """Records what logs of `rt plant --all` say."""
    known = recorded()
    for log in logs:
        crate = re.search(r"^plants crate=(\w+) ", log, re.M)[1]
        found = collections.defaultdict(collections.Counter)
        for kind, path in re.findall(r"^([a-z-]+) +(src/[\w/]+\.rt):\d+ ", log, re.M):
            found[f"crates/{crate}/{path}"][kind] += 1
        for path, count in found.items():
            known[path] = [str(sum(count[it] for it in kinds)) for kinds in COLUMNS.values()]
    write(PLANTED, "".join("\t".join([it, sum_of(it), *known[it]]) + "\n" for it in sorted(known)))


def planted_rows():
    """The rows of the page."""
    for path, cells in recorded().items():
        shown = path.removeprefix("crates/")
        yield f"[`{shown}`](../{path}) | {sum(map(int, cells))} | {' | '.join(cells)}"
