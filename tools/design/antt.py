"""Reads files of specs and proofs: what each item says."""

import collections
import re

from source import squeezed

WORDS = r"^( *)(?:(?:abbrev|opaque|unfoldable|pub|instance)\s+)*"
NAMED = re.compile(WORDS + r"()([^\s:(){},.=|]+)\s*:(?:\s|$)")
TYPE = re.compile(WORDS + r"(record|data)\s+([^\s:(){},.=|]+)")
BROKEN = re.compile(WORDS + r"()([^\s:(){},.=|]+)\s*$")
NO_NAMES = {"use", "mod", "open", "module", "infixl", "infixr", "infix", "prefix", "let", "λ", "unfolding", "where"}


def statements_in(text):
    """{name: statements}: what each item says, with what the modules around it take; of a record all of it. Answers are left out."""
    lines = [re.sub(r"\s*--.*$", "", line) for line in text.split("\n")]
    found, around, i = collections.defaultdict(list), [], 0
    while i < len(lines):
        depth = len(lines[i]) - len(lines[i].lstrip())
        if lines[i].strip():
            around = [it for it in around if it[0] < depth]
        head = head_at(lines, i)
        if lines[i].lstrip().startswith("module "):
            around.append((depth, squeezed(lines[i])))
        elif head and head[3] not in NO_NAMES:
            said, i = read_statement(lines, i, depth, bool(head[2]))
            if " : goal." not in said:
                found[head[3]].append(" ".join([m for _, m in around] + [said]))
            continue
        i += 1
    return found


def head_at(lines, i):
    """The head of an item on a line; its colon may stand on the next one."""
    broken = BROKEN.match(lines[i]) if i + 1 < len(lines) and lines[i + 1].lstrip().startswith(": ") else None
    return TYPE.match(lines[i]) or NAMED.match(lines[i]) or broken


def read_statement(lines, i, depth, whole):
    """From a head on: the lines that lie deeper; and where the next one stands."""
    said = [lines[i]]
    i += 1
    while i < len(lines) and (whole and not lines[i].strip() or len(lines[i]) - len(lines[i].lstrip()) > depth):
        said.append(lines[i])
        i += 1
    return squeezed(" ".join(said)), i
