"""The callers of the two crates of the gallery, as TASKS.md lists them, and what a crate gets that one is copied into."""
import difflib
import os
import re
from pathlib import Path

from adding.copies import LIST, TASKS, TOP, Refused, rows_of, text_of, with_rows
from pages.sources import blocks, doc_of, head_of, line_of, name_of, needed, with_module

GALLERY = ("micromap_uses", "micromap_tasks")  # no two files of them have the same name
LINK = r"\[`(\w+)`\]\(\.\./((\w+)/src/([\w/]+)\.rt)(?:#L\d+)?\)"  # of a row: name, path, crate and file
ROW = re.compile(rf"(.+) \| {LINK} \| (.+)$", re.M)


def files():
    """The crate of each file of the gallery."""
    paths = (it for crate in GALLERY for it in sorted(Path(f"{TOP}/crates/{crate}/src").iterdir()) if it.stem != "lib")
    return {it.stem: it.parent.parent.name for it in paths}


def source_of(file):
    return text_of(f"{TOP}/crates/{files()[file]}/src/{file}.rt")


def items_of(file):
    return [*blocks(source_of(file))]


def examples():
    """The file of each example: of a public function, or of a type with methods of its own."""
    own = re.compile(r"pub fn |impl(?:<.*>)? (?!.* for )(?s:.*?)\n    pub fn ")
    return {name_of(it): file for file in files() for it in items_of(file) if own.match(it.code)}


def tasks_of(text):
    """The functions of the tables that are in the gallery, each with its file and its task."""
    return [(name, file, task) for task, name, _, crate, file, _ in ROW.findall(text) if crate in GALLERY]


def by_hand(text, word):
    """The rows with this word whose functions are in a larger example."""
    rows = (it for it in ROW.findall(text) if it[3] not in GALLERY and word.lower() in it[0].lower())
    return [f"{name} of {path}, which is copied by hand" for _, name, path, *_ in rows]


def with_lines(text):
    """TASKS.md, where the link of each row leads to the line at which its function or type begins."""

    def renewed(link):
        line = line_of(text_of(f"{TOP}/crates/{link[2]}"), link[1])
        return f"[`{link[1]}`](../{link[2]}{f'#L{line}' if line else ''})"

    return re.sub(LINK, renewed, text)


def bare(code):
    """A text of code without what its layout may change."""
    return re.sub(r"\s|,(?=\s*[)}\]])", "", code)


def wrong_of_rows(text):
    """The rows of TASKS.md whose function or type isn't in its file, or hasn't the code that the row shows first."""
    for _, name, path, crate, file, shown in ROW.findall(text):
        source = text_of(f"{TOP}/crates/{path}")
        own = "\n".join(it.code for it in needed(name, items_of(file))) if crate in GALLERY else source
        code = re.match(r"`([^`]+)`", shown)
        if not line_of(source, name):
            yield f"{TASKS}: {path} has no {name}"
        elif not code or bare(code[1].replace("\\|", "|")) not in bare(own):
            yield f"{TASKS}: the row of {name} shows code that {path} doesn't have there: {shown}"


def wrong_of_tasks():
    """What is amiss in TASKS.md, and in the comments of the gallery."""
    text = text_of(f"{TOP}/{TASKS}")
    named, own = {it[:2] for it in tasks_of(text)}, {*examples().items()}
    for file, crate in files().items():
        silent = (it for it in items_of(file) if re.match("pub (?:fn|struct) ", it.code) and not doc_of(it.above))
        yield from (f"{crate}/src/{file}.rt: {name_of(it)} has no comment that says its task" for it in silent)
    yield from wrong_of_rows(text)
    yield from (f"{TASKS} has no row of {name} of {file}.rt" for name, file in sorted(own - named))


def own_files(gallery, texts):
    """The files of specs/, and of laws in proofs/, that some texts of a gallery's crate name, and those that these name."""
    named = re.findall(rf"(?:Rattle\.{gallery}\.|\bcrate::)(specs|proofs)(?:\.|::)([A-Z]\w*)(?:\.\{{|::)", "\n".join(texts))
    found = {it: text_of(f"{TOP}/crates/{gallery}/{it}") for it in (f"{folder}/{name}.antt" for folder, name in named)}
    return found | own_files(gallery, found.values()) if found else {}


def proofs_of(file, items):
    """The proof files of some items and of their methods, by their paths in the crate."""
    crate = Path(f"{TOP}/crates/{files()[file]}")
    names = {name for it in items for name in re.findall(r"^ *(?:pub )?fn (\w+)", it.code, re.M)}
    own = sorted(it for it in crate.glob(f"proofs/{file}/**/*.antt") if it.parent.name.lstrip("+") in names)
    return {str(it.relative_to(crate)): it.read_text() for it in own}


def found(name):
    """The file of an example. Of another name this says the nearest, and the examples whose tasks have it."""
    known, text = examples(), text_of(f"{TOP}/{TASKS}")
    if name in known:
        return known[name]
    tasks = [it for it, _, task in tasks_of(text) if name.lower() in task.lower()]
    near = dict.fromkeys([*tasks, *difflib.get_close_matches(name, known, 5, 0.6), *by_hand(text, name)])
    told = f"the nearest are {', '.join(near)}" if near else f"{TASKS} lists all"
    raise Refused(f"no example is named {name}; {told}")


def files_for(name, crate):
    """The files of an example by their paths in a crate of this name, with the paths of that crate in them."""
    file, module = found(name), name.lower()
    gallery, items = files()[file], needed(name, items_of(file))
    source = "\n\n".join([head_of(source_of(file), items), *(it.above + it.code for it in items)]) + "\n"
    proofs = proofs_of(file, items)
    new = {f"src/{module}.rt": source} | own_files(gallery, [source, *proofs.values()])
    new |= {it.replace(f"proofs/{file}/", f"proofs/{module}/", 1): text for it, text in proofs.items()}
    moved = [(rf"Rattle\.{gallery}\.(proofs|specs\.contracts|specs\.declared)\.{file}\.", rf"Rattle.{crate}.\1.{module}.")]
    for old, its in [*moved, (rf"\b{gallery}\b", crate), (rf"`{file}\.rt`", f"`{module}.rt`")]:
        new = {it: re.sub(old, its, text) for it, text in new.items()}
    return new


def with_example(name, dest, crate):
    """The files that a repository gets with an example in one of its crates, and those that list them."""
    folder, rows = f"crates/{crate}", rows_of(dest)
    new = {f"{folder}/{it}": text for it, text in files_for(name, crate).items()}
    root = next((it for it in (f"{folder}/src/lib.rt", f"{folder}/src/main.rt") if os.path.isfile(f"{dest}/{it}")), None)
    if not root or crate not in rows:
        raise Refused(f"{dest} has no crate {crate} with a line in {LIST}")
    if "micromap" not in rows:
        raise Refused(f"{dest} has no copy of the library: run tools/add {dest}")
    taken = [it for it in new if os.path.lexists(f"{dest}/{it}") and text_of(f"{dest}/{it}") != new[it]]
    if taken:
        raise Refused("\n  ".join([f"{dest} has other content in these files: move them away", *taken]))
    listed = {root: with_module(text_of(f"{dest}/{root}"), f"mod {name.lower()};")}
    for where, its in re.findall(rf"^({folder}/(?:specs|proofs))/(\w+)\.antt$", "\n".join(new), re.M):
        lib, line = f"{where}/Lib.antt", f"pub mod {its}\n"
        text = listed.get(lib, text_of(f"{dest}/{lib}"))
        listed[lib] = text if line in text else text + line
    row = [rows[crate], *(it for it in ("micromap", "micromap_core") if it not in rows[crate].partition(":")[2].split())]
    return new | listed | {LIST: with_rows(text_of(f"{dest}/{LIST}"), {crate: " ".join(row)})}
