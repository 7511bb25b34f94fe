"""The crate that docs/OWN_CRATE.md shows whole, as it stands there: tools/gate proves it with those of the repository.

Each of its files stands there behind a comment `<!-- file PATH -->`, and its line of crates.txt too.
"""
import os
import re
import textwrap

PAGE = "docs/OWN_CRATE.md"


def files(text):
    """Returns the texts of the files that the page shows, by their paths."""
    found = re.findall(r"<!-- file (\S+) -->\n+((?:(?: {4}[^\n]*)?\n)+)", text)
    return {path: textwrap.dedent(said).strip("\n") + "\n" for path, said in found}


def put(copy):
    """Puts the crate into this copy of the repository, and returns its name."""
    with open(f"{copy}/{PAGE}", encoding="utf-8") as it:
        shown = files(it.read())
    for path, text in shown.items():
        os.makedirs(os.path.dirname(f"{copy}/{path}"), exist_ok=True)
        with open(f"{copy}/{path}", "a" if path == "crates.txt" else "w", encoding="utf-8") as it:
            it.write(text)
    return shown["crates.txt"].partition(":")[0]
