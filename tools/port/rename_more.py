#!/usr/bin/env python3
"""Run at the repository's top, after respell.py and rename_modules.py: names that port.py left half turned (get_d for get_or), and clauses that it
named for one fact where they state another or several. It goes by whole identifiers and may be run again."""
import os
import re

# Lemmas of the laws, wherever they are cited.
EVERYWHERE = {"get_d_tabulate": "get_or-tabulate", "all_get_d": "all-get_or", "get_d_map": "get_or-map"}
# Clauses, in their own crate and in the proofs of that crate that cite them.
CLAUSES = {
    "slots": {"a_nonzero": "slots_differ"},
    "glyphs": {"lower_bound": "in_range"},
    "job_writing": {"q_bound": "record_fits"},
}


def turned(text, names):
    for old, new in names.items():
        text = re.sub(rf"(?<![\w'-]){old}(?![\w'-])", new, text)
    return text


for folder, dirs, files in os.walk("crates"):
    dirs[:] = sorted(it for it in dirs if it != "out")
    for name in sorted(files):
        if name.endswith((".rt", ".antt", ".edit")):
            path = os.path.join(folder, name)
            with open(path, encoding="utf-8") as it:
                text = it.read()
            new = turned(turned(text, EVERYWHERE), CLAUSES.get(path.split("/")[1], {}))
            if new != text:
                with open(path, "w", encoding="utf-8") as it:
                    it.write(new)
                print(path)
