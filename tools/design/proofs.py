"""Point 8: the proofs of each crate, counted: lines, answers, those of one of the plain forms, and lemmas that no other line names."""

import collections
import re

from antt import statements_in

ANSWER = re.compile(r"(?m)^(?:abbrev )?pub (\S+) : goal\.")
PLAIN = re.compile(r"^\S+( [\w()_]+)* = (search rules|omega arith|omega \(arith, c\.requires\)|refl)\s*$")


def crate_of(path):
    return path.split("/")[1]


def answers_in(text):
    """Each answer of a file: its name and its text."""
    starts = list(ANSWER.finditer(text))
    ends = [m.start() for m in starts[1:]] + [len(text)]
    return [(m[1], text[m.start() : end]) for m, end in zip(starts, ends)]


def is_plain(answer):
    lines = [l for l in answer.strip().split("\n")[1:] if l.strip() and not l.startswith("--")]
    return len(lines) == 1 and bool(PLAIN.match(lines[0]))


def lemmas_of(texts):
    """{crate: names of the items of its files of lemmas}."""
    lemmas = collections.defaultdict(list)
    for path, text in texts.items():
        if path.endswith(".antt") and "/proofs/" in path and not ANSWER.search(text) and not path.endswith("/Invariants.antt"):
            lemmas[crate_of(path)] += statements_in(text)
    return lemmas


def uses_of(texts):
    """How often each word stands in proofs, specs and src beside the lines that begin with it: its statement, and the cases of its proof."""
    uses = collections.Counter()
    for text in texts.values():
        for line in text.split("\n"):
            words = re.findall(r"[^\s(){},;.\[\]]+", re.sub(r"--.*$", "", line))
            head = [w for w in words if w not in ("pub", "abbrev", "opaque", "unfoldable", "record", "data")][:1]
            uses.update(words)
            uses.subtract(head)
    return uses


def row_of(crate, texts, lemmas, uses):
    mine = [t for p, t in texts.items() if crate_of(p) == crate and "/proofs/" in p and p.endswith(".antt")]
    answers = [a for t in mine for _, a in answers_in(t)]
    alone = [name for name in lemmas[crate] if uses[name] <= 0]
    return [sum(t.count("\n") for t in mine), len(answers), sum(map(is_plain, answers)), len(lemmas[crate]), len(alone)]


def rows_of(texts):
    lemmas, uses = lemmas_of(texts), uses_of(texts)
    rows = {c: row_of(c, texts, lemmas, uses) for c in sorted({crate_of(p) for p in texts})}
    return rows, [sum(column) for column in zip(*rows.values())]


def show(texts):
    rows, total = rows_of(texts)
    print("\n8. proofs: lines, answers, answers of a plain form, lemmas of lemma files, lemmas that nothing else names")
    print("  all " + " ".join(map(str, total)))
    print("     " + ", ".join(f"{crate} {' '.join(map(str, row))}" for crate, row in sorted(rows.items(), key=lambda it: -it[1][0])))


def show_row(old, now):
    """The row of point 8: each number then and now."""
    was, stand = rows_of(old)[1], rows_of(now)[1]
    words = ("lines", "answers", "of a plain form", "lemmas", "that nothing else names")
    print("| 8. proofs: " + "; ".join(f"{w} {a:,} -> {b:,}" for w, a, b in zip(words, was, stand)) + " | | | | | |")
