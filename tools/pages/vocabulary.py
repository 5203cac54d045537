"""The index of words of API.md: those of this library that clauses show, by the files that define them."""
import collections
import os
import re

from pages.sources import read, spec_of

DEFINED = r"(?:abbrev |unfoldable )?pub (?:record |data )?"  # what stands before a word where it is defined


def file_of(word, module):
    """The file that defines a word of a module, or nothing. A module may export a word that another one defines."""
    text = read(spec_of(module)) if spec_of(module) else ""
    if re.search(rf"^ *{DEFINED}{re.escape(word)} ", text, re.M):
        return spec_of(module)
    others = re.findall(r"^pub use Rattle\.([\w.]+)\.\{(.*)\}$", text, re.M)
    return next((file_of(word, other) for other, words in others if word in words.split(", ")), "")


def modules_of(texts):
    """The words of this library in some texts, each with the imports of its file, by the modules that users import them from and
    the files that define them."""
    exported, found = read("crates/micromap/specs/Lib.antt"), collections.defaultdict(set)
    for text, imports in texts:
        for word in {*re.findall(r"[\w-]+", text)} & {*imports}:
            module = imports[word]
            is_ours = f"pub use Rattle.{module}\n" in exported
            if file_of(word, module):
                user_module = module.replace("micromap_core", "micromap") if is_ours else module
                found[user_module, file_of(word, module)].add(word)
    return found


def example_of(word, text):
    """The statement of the first example of a word in the text of its file, or nothing. The name of an example is that of the
    word with more behind a hyphen."""
    found = re.search(rf"^{re.escape(word)}-\S+ : (.+)$", text, re.M)
    return found[1] if found else ""


def index(texts, wrong):
    """The rows of the index: of each module its words with their examples, and last those without one. The words without a
    comment where they are defined are added to `wrong`."""
    for (module, path), words in sorted(modules_of(texts).items()):
        text, words = read(path), sorted(words, key=lambda it: (it.lower(), it))
        bare = (it for it in words if not re.search(rf"^ *-- .*\n *{DEFINED}{re.escape(it)} ", text, re.M))
        wrong += [f"{path}: no comment above {it} says what it means" for it in bare]
        examples = {it: example_of(it, text) for it in words}
        rows = [f"`{it}` | `{example}`" for it, example in examples.items() if example]
        others = [f"`{it}`" for it, example in examples.items() if not example]
        if others:
            rows.append(f"{', '.join(others)} | ")
        for n, row in enumerate(rows):
            link = f"[`{module}`]({os.path.relpath(path, 'crates/micromap')})" if n == 0 else ""
            yield f"| {link} | {row} |"
