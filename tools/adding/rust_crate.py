"""Builds and runs programs of the Rust crate, for `tools/record` and `tools/compare`."""
import re
import subprocess
import sys

from adding.copies import TOP
from pages.sources import read


def run(words, folder=TOP):
    """Runs a program in a folder and returns what it prints; where it fails, ends this one with its last lines."""
    try:
        ended = subprocess.run(words, cwd=folder, capture_output=True, text=True)
    except FileNotFoundError:
        sys.exit(f"there is no program {words[0]}")
    if ended.returncode != 0:
        sys.exit("\n".join([*(ended.stdout + ended.stderr).splitlines()[-20:], f"{' '.join(words)} failed"]))
    return ended.stdout


def field(rust_crate, name):
    """A field of the crate's Cargo.toml."""
    return re.search(rf'^{name}\s*=\s*"([^"]*)"', read(f"{rust_crate}/Cargo.toml"), re.M)[1]


def library(rust_crate, folder, flags):
    """Compiles the crate with no feature, and returns the path of the library in a folder."""
    crate = ["--crate-name=micromap", "--crate-type=rlib", f"--edition={field(rust_crate, 'edition')}", "--cap-lints=allow"]
    run(["rustc", *flags, *crate, f"{rust_crate}/src/lib.rs", "-o", f"{folder}/libmicromap.rlib"])
    return f"{folder}/libmicromap.rlib"
