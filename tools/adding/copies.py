"""Copies of this library: for another repository, by `tools/add`, and for a check in a folder of its own."""
import hashlib
import os
import re
import shutil
import subprocess

from pages.sources import LIBRARY

TOP = os.path.dirname(os.path.dirname(os.path.dirname(os.path.realpath(__file__))))
PROGRAMS = ("micromap_first", "micromap_contract")  # the crates whose files CRATE gets: without a contract, and with one
ORIGIN, LICENSE, LIST, IGNORED = "crates/micromap/ORIGIN", "crates/micromap/LICENSE", "crates.txt", ".gitignore"
TASKS = "crates/micromap/TASKS.md"


class Refused(Exception):
    """Why nothing was changed."""


def read(path):
    with open(path, "rb") as file:
        return file.read()


def text_of(path):
    return read(path).decode() if os.path.exists(path) else ""


def write(path, content):
    os.makedirs(os.path.dirname(path), exist_ok=True)
    with open(path, "wb") as file:
        file.write(content)


def sum_of(content):
    return hashlib.sha256(content).hexdigest()


def files_of(top, crate, left_out=("must-fail", "wrong-bodies", "out")):
    """The paths of a crate's files from a repository's top, but for hidden ones and those in some of its folders."""
    folder = f"{top}/crates/{crate}"
    for at, folders, names in os.walk(folder):
        folders[:] = sorted(it for it in folders if it[0] != "." and (at != folder or it not in left_out))
        yield from (os.path.relpath(f"{at}/{it}", top) for it in sorted(names) if it[0] != ".")


def library():
    """The files of the copy, with their content."""
    files = {path: read(f"{TOP}/{path}") for crate in LIBRARY for path in files_of(TOP, crate)}
    return files | {TASKS: without_links(text_of(f"{TOP}/{TASKS}")).encode(), LICENSE: read(f"{TOP}/LICENSE")}


def without_links(text):
    """A document without its links to the files of crates that aren't copied, whose names stay."""
    copied = "|".join(LIBRARY)
    return re.sub(rf"\[(`\w+`)\]\(\.\./(?!(?:{copied})/)[^)]*\)", r"\1", text)


def program_as(crate, program=PROGRAMS[0]):
    """The files of a first program by their paths in a crate of this name, with their content."""
    start = f"crates/{program}/"
    return {it.replace(start, f"crates/{crate}/", 1): read(f"{TOP}/{it}") for it in files_of(TOP, program)}


def row_name(line):
    """The name of the crate that a line of a crates.txt lists, as code writes it."""
    found = re.match(r"\s*(?:[\w-]+/)*([\w-]+)", line.partition("#")[0])
    return found[1].replace("-", "_") if found else ""


def rows_of(top):
    """The lines of a repository's crates.txt by the names of their crates, without comments."""
    return {row_name(it): it.partition("#")[0].strip() for it in text_of(f"{top}/{LIST}").splitlines() if row_name(it)}


def rows_for(crate):
    own = rows_of(TOP)
    return {it: own[it] for it in LIBRARY} | ({crate: own[PROGRAMS[0]].replace(PROGRAMS[0], crate, 1)} if crate else {})


def with_rows(listed, rows):
    """The text of a crates.txt with some lines, each in the place of its crate's line, or else at the end."""
    left, lines = dict(rows), []
    for line in listed.splitlines():
        new, (old, mark, comment) = left.pop(row_name(line), None), line.partition("#")
        is_kept = new is None or old.split() == new.split()
        lines.append(line if is_kept else f"{new} {mark}{comment}".strip())
    return "".join(f"{it}\n" for it in [*lines, *left.values()])


def version():
    """The version of this library, and the commit that its sources are of, where git says so."""
    found = re.search(r"^## (\S+?),? ", text_of(f"{TOP}/CHANGELOG.md"), re.M)
    sources = ["LICENSE", *(f"crates/{it}" for it in LIBRARY)]
    try:
        asked = (["rev-parse", "HEAD"], ["status", "--porcelain", "--", *sources])
        runs = [subprocess.run(["git", "-C", TOP, *it], capture_output=True, text=True, check=True) for it in asked]
    except (OSError, subprocess.CalledProcessError):
        return found[1], ""
    commit, changes = (it.stdout.strip() for it in runs)
    return found[1], f", commit {commit}{' with changes' if changes else ''}"


def origin_of(files):
    """The text of ORIGIN: what the copy is of, and the checksums, as `sha256sum --check` reads them."""
    what = f"# micromap {''.join(version())}, copied by its tools/add, which also brings the copy up to date\n"
    return what + "".join(f"{sum_of(content)}  {path}\n" for path, content in files.items())


def recorded(dest):
    """The checksums that a copy was made with, by the paths of its files."""
    row = rf"^([0-9a-f]{{64}})  (crates/(?:{'|'.join(LIBRARY)})/(?!.*\.\./).+)$"
    return {path: checksum for checksum, path in re.findall(row, text_of(f"{dest}/{ORIGIN}"), re.M)}


def below(crate):
    """The lines of a crate and of those below it, by their names."""
    rows = rows_of(TOP)
    found = {crate: rows[crate]}
    for name in rows[crate].partition(":")[2].split():
        found |= below(name) if name in rows else {}
    return found


def link(one, other):
    """Gives a file another name. `rt` replaces what it keeps, and writes into no file of it."""
    try:
        os.link(one, other)
    except OSError:
        shutil.copy2(one, other)


def room_with(crate, room):
    """Copies a crate and those below it to a folder, with what `rt check` kept of them, and returns the crate's folder there."""
    rows = below(crate)
    for part in (f"crates/{name}/{it}" for name in rows for it in ("src", "specs", "proofs", "out")):
        if os.path.isdir(f"{TOP}/{part}"):
            how = link if part.endswith("/out") else shutil.copy2
            shutil.copytree(f"{TOP}/{part}", f"{room}/{part}", copy_function=how, symlinks=True)
    shutil.copy(f"{TOP}/HANDLES", room)
    write(f"{room}/{LIST}", "".join(f"{it}\n" for it in rows.values()).encode())
    return f"{room}/crates/{crate}"
