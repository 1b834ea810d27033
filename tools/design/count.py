#!/usr/bin/env python3
"""count.py [COMMIT] [--point N] [--list | --open] [--since OLD]: counts what docs/DESIGN-PASS.md counts, in crates/*/src of the checkout or a commit.

For each point of the page: what its rules find (the rules stand in rules.py), less what was read and is no place (judged.txt), by rule and by
crate. --list gives each place with its file and line, --open only those that still stand and are not kept, --point N one point alone.
--since OLD prints the page's last table instead: of the places at OLD how many are changed, kept and still to do, and how many are new."""

import collections
import fnmatch
import os
import re
import sys

sys.dont_write_bytecode = True

import proofs
import rules
from source import Source, texts_of

HERE = os.path.dirname(os.path.realpath(__file__))


def judged():
    """The lines of judged.txt: (file, name, point, verdict, why)."""
    with open(os.path.join(HERE, "judged.txt"), encoding="utf-8") as file:
        lines = [line.strip() for line in file if line.strip() and not line.startswith("#")]
    return [tuple(part.strip() for part in line.split("|", 4)) for line in lines]


def verdict_of(place, lines):
    """What was read of a place: the first line that fits it; 'unread' where none does."""
    path = place.path.removeprefix("crates/").replace("/src/", "/")
    for file, name, point, verdict, why in lines:
        if point in (place.rule, place.rule[0]) and fnmatch.fnmatchcase(path, file) and fnmatch.fnmatchcase(place.name, name):
            return verdict, why
    return ("yes" if place.rule in rules.NEED_NO_READING else "unread"), ""


def begun_at():
    """The commit at which the work began: the page's first line."""
    with open(os.path.join(HERE, "..", "..", "docs", "DESIGN-PASS.md"), encoding="utf-8") as file:
        return file.readline().strip()


def places_of(source, commit):
    """All candidates, each with its verdict. What is done was a place at the beginning, and is none since."""
    lines = judged()
    found = rules.all_places(source, lines)
    read = [(place, *verdict_of(place, lines)) for place in found]
    done = "yes" if commit and begun_at().startswith(commit) else "no"
    return [(place, done if verdict == "done" else verdict, why) for place, verdict, why in read]


def by_crate(places):
    counts = collections.Counter(p.crate for p in places)
    return ", ".join(f"{c} {n}" for c, n in sorted(counts.items(), key=lambda it: (-it[1], it[0])))


def places_by_name(places, point, *verdicts):
    """How many places of a point each function or type has, by (file, name); of some verdicts alone, or of all that are places."""
    lines = {(p.path, p.line, p.name) for p, verdict, _ in places if p.rule[0] == point and verdict in (verdicts or ("yes", "kept", "unread"))}
    return collections.Counter((path, name) for path, _, name in lines)


def show_table(old, now):
    """The page's last table: found at OLD; of these changed; kept and still to do, of all that stands now; and what stands now and did not at OLD."""
    print("| point | found | changed | kept | still to do | of what stands, new since |\n|---|---:|---:|---:|---:|---:|")
    for point, title in list(rules.POINTS.items())[:-1]:
        was, stand = places_by_name(old, point), places_by_name(now, point)
        kept = places_by_name(now, point, "kept")
        row = [total(was), total(was - stand), total(stand & kept), total(stand - kept), total(stand - was)]
        print(f"| {point}. {title} | " + " | ".join(f"{n:,}" for n in row) + " |")


def total(counts):
    return sum(counts.values())


def show_more_of_loops(source):
    rows = collections.Counter(f.crate for f in source.functions for _ in re.finditer(r"\bfor \w|\bfor \(", f.body))
    print(f"  beside them: {total(rows)} loops by `for`")


def show_more_of_groups(source, options):
    groups, facts = rules.groups_of_params(source), rules.common_facts(source)
    most = None if options["list"] else 8
    print(f"  the groups of parameters: {len(groups)}; those of most functions, with how many they are:")
    for group, functions in sorted(groups.items(), key=lambda it: (-len(it[0]) * len(it[1]), sorted(it[0])))[:most]:
        print(f"     {len(functions)}: {', '.join(sorted(n for n, _ in group))}")
    print(f"  the facts: {len(facts)}, in {sum(map(len, facts.values()))} places; those of most functions, with how many they are:")
    for fact, functions in sorted(facts.items(), key=lambda it: (-len(it[1]), it[0]))[:most]:
        print(f"     {len(functions)}: {fact}")


def show_point(point, title, places, options):
    mine = [it for it in places if it[0].rule[0] == point]
    print(f"\n{point}. {title}")
    for rule, what in rules.RULES.items():
        if rule[0] != point:
            continue
        of_rule = [it for it in mine if it[0].rule == rule]
        counts = collections.Counter(verdict for _, verdict, _ in of_rule)
        stand = [p for p, verdict, _ in of_rule if verdict != "no"]
        told = f"{len(stand)} of {len(of_rule)} candidates" if counts["no"] else f"{len(stand)}"
        more = "".join(f", {counts[v]} {v}" for v in ("kept", "unread") if counts[v])
        print(f"  {rule} {what}: {told}{more}")
        if stand:
            print(f"     {by_crate(stand)}")
        if options["list"]:
            show_places(of_rule, options["open"])
    stand = [p for p, verdict, _ in mine if verdict != "no"]
    distinct = {(p.path, p.line, p.name) for p in stand}
    kept = {(p.path, p.line, p.name) for p, verdict, _ in mine if verdict == "kept"}
    unread = sum(verdict == "unread" for _, verdict, _ in mine)
    print(f"  all of point {point}: {len(distinct)} places, {len(kept)} of them kept, {unread} unread")


def show_places(places, only_open):
    for place, verdict, why in places:
        if not only_open or verdict in ("yes", "unread"):
            print(f"       {place.path}:{place.line} {place.name} [{verdict}] {place.note}{' -- ' + why if why else ''}")


def value_of(words, option):
    return words[words.index(option) + 1] if option in words[:-1] else None


def show_all(source, commit, options, only):
    places = places_of(source, commit)
    print(f"design: {'commit ' + commit if commit else 'the checkout as it stands'}")
    for point, title in list(rules.POINTS.items())[:-1]:
        if only in (None, point):
            show_point(point, title, places, options)
            if point == "3":
                show_more_of_loops(source)
            if point == "5":
                show_more_of_groups(source, options)
    if only in (None, "8"):
        proofs.show(texts_of(commit, "proofs", "specs", "src"))


def main(words):
    options = {"list": "--list" in words or "--open" in words, "open": "--open" in words}
    only, since = value_of(words, "--point"), value_of(words, "--since")
    rest = [w for w in words if not w.startswith("--") and w not in (only, since)]
    if len(rest) > 1 or "--help" in words:
        print(__doc__)
        return 2
    commit = rest[0] if rest else None
    if since:
        show_table(places_of(Source(since), since), places_of(Source(commit), commit))
        proofs.show_row(texts_of(since, "proofs", "specs", "src"), texts_of(commit, "proofs", "specs", "src"))
        return 0
    show_all(Source(commit), commit, options, only)
    return 0


if __name__ == "__main__":
    raise SystemExit(main(sys.argv[1:]))
