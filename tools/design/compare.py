#!/usr/bin/env python3
"""compare.py OLD [NEW] [--short]: what two commits, or a commit and the checkout as it stands, say otherwise. For docs/DESIGN-PASS.md.

Lists public signatures and clauses of crates/*/src, ghost items and constants of types, definitions of crates/*/specs, statements of
crates/*/proofs, and must-fail edits: changed (old and new beside each other), gone, new. Functions and definitions are paired by the kit's
port/contracts.py, which is run; statements of proofs, which it leaves out, are compared here. All by text: whether a changed text says less, a
reader judges. --short gives names alone. The summary is the last line."""

import collections
import json
import os
import re
import subprocess
import sys
import tempfile

sys.dont_write_bytecode = True

from antt import statements_in
from source import TOP, Source, squeezed, texts_of

# Beside the page that `rt doc` names.
KIT = os.path.dirname(subprocess.run(["rt", "doc"], capture_output=True, text=True, check=True).stdout.split()[0])
CONTRACTS = os.path.join(KIT, "port", "contracts.py")


def unpacked(commit, folder):
    """crates/ of a commit in a folder; of no commit, the checkout itself."""
    if commit is None:
        return TOP
    archive = subprocess.Popen(["git", "-C", TOP, "archive", commit, "crates"], stdout=subprocess.PIPE)
    if subprocess.run(["tar", "-x", "-C", folder], stdin=archive.stdout).returncode or archive.wait():
        raise SystemExit(f"no commit {commit}")
    return folder


def by_the_kit(old, new):
    with tempfile.TemporaryDirectory() as one, tempfile.TemporaryDirectory() as two:
        words = [sys.executable, CONTRACTS, unpacked(old, one), unpacked(new, two), "--json"]
        return json.loads(subprocess.run(words, capture_output=True, text=True, check=True).stdout)


# ---- functions


def kit_name(f):
    """A function's name as contracts.py writes it."""
    path = f.path.split("/", 2)[2]
    return " ".join(part for part in (f.crate, path, f.owner, f.name) if part)


def public_names(source):
    return {kit_name(f): f for f in source.functions if f.public}


def short_name(name):
    """`crate function` of a name of contracts.py."""
    parts = name.split(" (")[0].split(" ")
    return f"{parts[0]} `{'::'.join(parts[2:])}`"


def show_functions(kit, old, new, short):
    was, now = public_names(old), public_names(new)
    titles = {(f.crate, f.title()) for f in was.values()}
    signatures = {row[0]: row[1:] for row in kit["signatures changed"] if row[0] in was}
    clauses = {row[0]: row[1:] for row in kit["contracts changed"] if row[0] in was}
    lost = [n.split(" (")[0] for n in kit["functions not found again"]]
    gone = [n for n in lost if n in was]
    hidden = [n for n in kit["no longer pub"] if n in was]
    fresh = sorted(f"{f.crate} `{f.title()}`" for f in now.values() if (f.crate, f.title()) not in titles)
    changed = sorted(set(signatures) | set(clauses))
    print("\n## Public signatures and clauses\n")
    for name in changed:
        print(f"- {short_name(name)}")
        if not short:
            show_signature(signatures.get(name))
            show_clauses(clauses.get(name))
    print_names("gone", [short_name(n) for n in gone])
    print_names("new, or of another crate before", fresh)
    print_names("gone, private", [short_name(n) for n in lost if n not in was])
    for label in ("ensures all gone", "fewer ensures", "more requires", "no longer pub"):
        print_names(label, [short_name(n) for n in kit[label]])
    return f"public functions {len(was)} -> {len(now)}: {len(signatures)} signatures and {len(clauses)} contracts changed, {len(gone)} gone, {len(hidden)} private now, {len(fresh)} new; private ones gone {len(lost) - len(gone)}"


def show_signature(pair):
    if pair:
        print(f"  - old `{pair[0]}`\n  - new `{pair[1]}`")


def show_clauses(row):
    for kind, old, new in (("requires", row[0], row[2]), ("ensures", row[1], row[3])) if row else ():
        was, now = [c[-1] for c in old], [c[-1] for c in new]
        for text in was:
            if text not in now:
                print(f"  - old {kind} `{text}`")
        for text in now:
            if text not in was:
                print(f"  - new {kind} `{text}`")


# ---- definitions of specs, ghost items, edits


def show_items(title, part, short, name_of):
    """Items as contracts.py lists them: gone and changed."""
    print(f"\n## {title}\n")
    for row in part["changed"]:
        print(f"- {name_of(row[:-2])}")
        if not short:
            print(f"  - old `{joined(row[-2])}`\n  - new `{joined(row[-1])}`")
    print_names("gone", [name_of(row) for row in part["gone"]])


def joined(text):
    return squeezed(" ; ".join(text) if isinstance(text, list) else text)


def item_name(row):
    return f"{row[0]} `{' '.join(row[1:])}`"


def show_definitions(kit, old, new, short):
    show_items("Definitions of specs/", kit["definitions"], short, item_name)
    was, now = definition_names(old), definition_names(new)
    print_names("new", sorted(f"{c} `{n}`" for c, n in now - was))
    d = kit["definitions"]
    return f"definitions {d['old']} -> {d['new']}: {len(d['changed'])} changed, {len(d['gone'])} gone"


def definition_names(commit):
    return {(path.split("/")[1], name) for path, text in texts_of(commit, "specs").items() for name in statements_in(text)}


def edits_of(commit):
    names = git("ls-tree", "-r", "--name-only", commit, "crates") if commit else git("ls-files", "-co", "--exclude-standard", "crates")
    return {p for p in names.split("\n") if p.endswith(".edit")}


def git(*words):
    return subprocess.run(["git", "-C", TOP, *words], capture_output=True, text=True, check=True).stdout


def show_edits(kit, old, new, short):
    part = kit["edits and outputs"]
    edits = {key: [row for row in part[key] if row[1].endswith(".edit")] for key in ("changed", "gone")}
    show_items("Must-fail edits", edits, short, item_name)
    was, now = edits_of(old), edits_of(new)
    fresh = sorted(p.removeprefix("crates/") for p in now - was)
    print_names("new, or of another crate before", fresh)
    return f"edits {len(was)} -> {len(now)}: {len(edits['changed'])} changed, {len(edits['gone'])} gone, {len(fresh)} new"


# ---- statements of proofs


def statements_of(commit):
    """{(crate, name): {statement: file}}"""
    found = collections.defaultdict(dict)
    for path, text in texts_of(commit, "proofs").items():
        for name, said in statements_in(text).items() if path.endswith(".antt") else ():
            for s in said:
                found[path.split("/")[1], name][s] = path
    return found


def named_in_docs(commit):
    """The words that README and docs/ have between backticks."""
    names = [n for n in git("ls-tree", "-r", "--name-only", commit, "README.md", "docs").split("\n") if n.endswith(".md") and "PORT" not in n]
    text = "".join(git("show", f"{commit}:{n}") for n in names)
    return set(re.findall(r"`([^`\s]+)`", text))


def show_statements(old, new, short):
    was, now, named = statements_of(old), statements_of(new), named_in_docs(old)
    elsewhere = {(name, s) for (_, name), said in now.items() for s in said}
    changed = sorted(k for k in was if k in now and set(was[k]) - set(now[k]))
    lost = [k for k in was if k not in now]
    moved = sorted(k for k in lost if all((k[1], s) in elsewhere for s in was[k]))
    gone = sorted(set(lost) - set(moved))
    fresh = sorted(k for k in now if k not in was and not any(k[1] == m[1] for m in moved))
    public = [k for k in changed if any(is_public(s) for s in was[k])]
    print("\n## Statements of proofs/ (those whose names stand in README or docs/ have a star)\n")
    for key in public:
        show_statement(key, was, now, named, short)
    by_crate("changed, used in their file alone", sorted(set(changed) - set(public)), named)
    by_crate("gone", gone, named)
    by_crate("in another crate now, the same", moved, named)
    by_crate("new", fresh, named)
    stars = sum(n in named for _, n in gone)
    return f"statements of proofs {count_of(was)} -> {count_of(now)}: names of {len(changed)} changed, {len(gone)} gone ({stars} with a star), {len(moved)} moved, {len(fresh)} new"


def count_of(statements):
    return sum(map(len, statements.values()))


def is_public(statement):
    return bool(re.search(r"(?:^|where )(?:abbrev |unfoldable |opaque )*pub \S+ ?:|(?:^|where )(?:abbrev )?pub (?:record|data) ", statement))


def show_statement(key, was, now, named, short):
    print(f"- {marked(key, named)}")
    for label, these, others in (("old", was, now), ("new", now, was)):
        for said in sorted(set(these[key]) - set(others[key])) if not short else ():
            print(f"  - {label} `{said}`")


def marked(key, named):
    return f"{key[0]} `{key[1]}`{'*' if key[1] in named else ''}"


def by_crate(label, keys, named):
    crates = collections.defaultdict(list)
    for crate, name in keys:
        crates[crate].append(f"`{name}`{'*' if name in named else ''}")
    for crate, names in crates.items():
        print(f"- {label}, {crate}: {', '.join(names)}")


def print_names(label, names):
    if names:
        print(f"- {label}: {', '.join(names)}")


def main(words):
    commits = [w for w in words if not w.startswith("--")]
    if len(commits) not in (1, 2):
        print(__doc__)
        return 2
    old, new, short = commits[0], commits[1] if len(commits) > 1 else None, "--short" in words
    kit = by_the_kit(old, new)
    said = [
        show_functions(kit, Source(old), Source(new), short),
        show_definitions(kit, old, new, short),
        show_statements(old, new, short),
        show_edits(kit, old, new, short),
    ]
    show_items("Ghost items of types, and constants", kit["ghost items and constants"], short, item_name)
    print(f"\ncompare: {'; '.join(said)}")
    return 0


if __name__ == "__main__":
    raise SystemExit(main(sys.argv[1:]))
