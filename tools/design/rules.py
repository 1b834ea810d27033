"""The rules by which count.py finds the places of each point of docs/DESIGN-PASS.md. Each goes by text; judged.txt has what was read of each."""

import collections
import fnmatch
import itertools
import re

POINTS = {
    "1": "own enums, flags beside values, numbers for kinds and refusals",
    "2": "twins",
    "3": "loops that count by hand",
    "4": "equality, order, copying, conversion and telling by hand",
    "5": "parameters that travel together, facts that stand again and again",
    "6": "slices with a place or a length beside, parallel tables, searches by hand",
    "7": "switches on a step, tables of functions",
    "8": "proofs",
}
RULES = {
    "1a": "own enums",
    "1b": "fields that are a refusal's number or a flag, in structs",
    "1c": "functions that answer a number which means none, refused or not found",
    "1d": "constants that are a kind's or a refusal's number",
    "1e": "parameters that are a kind's or a refusal's number, or a flag",
    "1f": "functions that keep a number and one more in lent words, 0 for none (read)",
    "2a": "functions with the same body up to names, types and numbers",
    "2b": "functions that are nearly alike",
    "2c": "structs and enums with the same parts",
    "2d": "functions, types and constants alike that no rule finds (read)",
    "3a": "loops, by hand",
    "3b": "functions that call themselves",
    "4a": "functions that compare",
    "4b": "loops that copy or fill",
    "4c": "functions that turn one value into another",
    "4d": "the smaller of two, bounded or rounded-up numbers, spelled out",
    "4e": "a report's words, or text, written out",
    "4f": "structs of zeros, or copied field by field",
    "5a": "functions with three or more parameters that stand together in three or more",
    "5b": "functions that ask a fact that three or more ask",
    "6a": "functions with a slice and an offset into it",
    "6b": "structs of offsets",
    "6c": "searches by halving",
    "6d": "functions with a slice and a count of it",
    "6e": "arrays of fixed size",
    "7a": "functions that choose what to run by a parameter or a field",
    "7b": "function pointers and tables of functions",
    "7c": "functions that are alike but for one step (read)",
}
# What these rules find is a place as it stands; of the others each is read.
NEED_NO_READING = {"2a", "3a", "5a", "5b", "6a", "6d", "7b"}
NUMBERS = ("u8", "u16", "u32", "u64", "usize")
FLAG_FIELDS = ("no", "begun", "early", "half", "mode")
KIND_PARAMS = ("mode", "what", "kind", "no", "standing", "verdict", "reason", "format")
# Names of parameters and fields that are a place in a slice, and of those that count its words.
PLACES = (
    "at a b x p q from to tmp index start row rows table tables first seen ids kinds marks numbers shape slot slots order finals heads list "
    "used cols places group scratch place home line values body base next slots"
).split()
COUNTS = "n m h g k count long size words regions records sets upto".split()

Place = collections.namedtuple("Place", "rule path line name crate note")


def place(rule, item, name, note="", line=None):
    return Place(rule, item.path, line or item.line, name, item.crate, note)


# ---- 1


def own_enums(source):
    return [place("1a", t, t.name, ", ".join(n for n, _ in t.parts)) for t in source.types if t.word == "enum"]


def flag_fields(source):
    structs = [t for t in source.types if t.word == "struct"]
    return [place("1b", t, f"{t.name}.{n}", kind) for t in structs for n, kind in t.parts if n in FLAG_FIELDS or kind == "bool"]


def comment_above(source, item):
    lines = source.texts[item.path].split("\n")[: item.line - 1]
    said = []
    while lines and re.match(r"\s*(//|#\[)", lines[-1]):
        said.append(lines.pop().strip())
    return " ".join(reversed(said))


def number_answers(source):
    none = re.compile(r"\b0 (?:where|for|above|of)\b|\bor 0\b|\belse 0\b|; 0 |\bwhere there is none|stands nowhere|where none|where every|has none there|16 for")
    found = []
    for f in source.functions:
        if f.returns in NUMBERS and (f.name.endswith("_no") or none.search(comment_above(source, f))):
            found.append(place("1c", f, f.title(), f.returns))
    return found


def number_constants(source):
    return [place("1d", c, c.title(), c.value) for c in source.constants if c.kind in NUMBERS]


def kind_params(source):
    found = []
    for f in source.functions:
        for name, kind in f.params:
            if kind == "bool" or (name in KIND_PARAMS and kind in NUMBERS):
                found.append(place("1e", f, f"{f.title()}({name})", kind))
    return found


# ---- 2

TOKEN = re.compile(r"[A-Za-z_]\w*|\d[\w.]*|<=|>=|==|!=|&&|\|\||::|->|=>|\.\.|\S")
KEYWORDS = set("if else while loop for in let mut return match true false as break continue fn const struct enum impl self ref".split())


def plain(f):
    """The tokens of a body with each name by the order of its first use, each type a T and each number an N."""
    seen, out = {}, []
    for token in TOKEN.findall(f.body):
        if token in NUMBERS or token in ("i32", "i64"):
            out.append("T")
        elif token[0].isdigit():
            out.append("N")
        elif NAME_TOKEN.match(token) and token not in KEYWORDS:
            out.append("v%d" % seen.setdefault(token, len(seen)))
        else:
            out.append(token)
    return tuple(re.sub(r"NT$", "N", t) for t in out)


NAME_TOKEN = re.compile(r"[A-Za-z_]")


def twins(source):
    by_body = collections.defaultdict(list)
    for f in source.functions:
        body = plain(f)
        if len(body) >= 12:
            by_body[body].append(f)
    found, near, bodies = [], [], list(by_body.items())
    for group in by_body.values():
        if len(group) > 1:
            found += [place("2a", f, f.title(), "with " + others(group, f)) for f in group]
    alike = collections.defaultdict(set)
    for (one, first), (two, second) in itertools.combinations(bodies, 2):
        if min(len(one), len(two)) >= 24 and close(one, two):
            for f, g in itertools.product(first, second):
                alike[f].add(g)
                alike[g].add(f)
    for f, others_of in alike.items():
        near.append(place("2b", f, f.title(), "with " + others(others_of, f)))
    return found + sorted(near)


def others(group, f):
    return ", ".join(sorted(f"{g.crate} {g.title()}" for g in group if g is not f))


def close(one, two):
    """Whether all but a seventh of two bodies is the same, in order."""
    longest = max(len(one), len(two))
    if abs(len(one) - len(two)) > longest / 7:
        return False
    shared = sum((collections.Counter(one) & collections.Counter(two)).values())
    if shared < longest * 6 / 7:
        return False
    return in_order(one, two) >= longest * 6 / 7


def in_order(one, two):
    """How long the longest common run in order is."""
    row = [0] * (len(two) + 1)
    for a in one:
        before = 0
        for j, b in enumerate(two, 1):
            before, row[j] = row[j], before + 1 if a == b else max(row[j], row[j - 1])
    return row[-1]


def type_twins(source):
    by_parts = collections.defaultdict(list)
    for t in source.types:
        if len(t.parts) > 1:
            by_parts[t.word, parts_of(t)].append(t)
    return [place("2c", t, t.name, "with " + ", ".join(f"{o.crate} {o.name}" for o in g if o is not t)) for g in by_parts.values() if len(g) > 1 for t in g]


def parts_of(t):
    """A struct's names; an enum's types by variant, and the names of those that have none."""
    return tuple(sorted(n for n, _ in t.parts)) if t.word == "struct" else tuple(sorted(kind or n for n, kind in t.parts))


# ---- 3


def loops(source):
    found = []
    for f in source.functions:
        for m in re.finditer(r"\b(while|loop)\b([^{]*)\{", f.body):
            line = f.body_line + f.body.count("\n", 0, m.start())
            found.append(place("3a", f, f.title(), walked(m, f.body), line))
    return found


def walked(loop, body):
    """What a loop walks by: its variable, and how that goes on."""
    inner = body[loop.start() : inside_end(body, loop.end() - 1)]
    for name in re.findall(r"[a-z_]\w*(?:\.\w+)?", loop[2]):
        if re.search(r"\b%s \+= 1;" % re.escape(name), inner):
            return name + " up by 1"
        if re.search(r"\b%s -= 1;|\b%s = \w+ - 1;" % (re.escape(name), re.escape(name)), inner):
            return name + " down by 1"
        if re.search(r"\b%s \+= " % re.escape(name), inner):
            return name + " up by steps"
    return re.sub(r"\s+", " ", loop[2]).strip()


def inside_end(text, at):
    depth = 0
    for i in range(at, len(text)):
        depth += (text[i] == "{") - (text[i] == "}")
        if depth == 0:
            return i + 1
    return len(text)


def own_calls(source):
    return [place("3b", f, f.title()) for f in source.functions if re.search(r"(?<![:.\w])%s\(" % f.name, f.body)]


# ---- 4


def comparing(source):
    named = re.compile(r"^(same|equal|better|compare)|_most$|^at_most$|order$")
    return [place("4a", f, f.title(), f.returns) for f in source.functions if f.returns in ("Order", "Ordering", "Parting") or (f.returns == "bool" and named.search(f.name))]


def copy_loops(source):
    """Loops that only set one or two words of a slice a step, from another's, or to what does not change."""
    step = re.compile(r"^\s*[a-z_]\w* (?:\+=|-=|= \w+ [-+]) ?[^;]*;\s*$")
    set_one = re.compile(r"^\s*(?:\w+\[[^=]*\] = [^;]*|put\(\w+, \w+, zero\));\s*$")
    found = []
    for f in source.functions:
        for m in re.finditer(r"\bwhile\b[^{]*\{", f.body):
            inner = f.body[m.end() : inside_end(f.body, m.end() - 1) - 1]
            steps = [s + ";" for s in inner.split(";") if s.strip()]
            sets = [s for s in steps if set_one.match(s)]
            if sets and "{" not in inner and len(sets) <= 2 and all(step.match(s) or set_one.match(s) for s in steps):
                found.append(place("4b", f, f.title(), " ".join(sets[0].split()), f.body_line + f.body.count("\n", 0, m.start())))
    return found


def conversions(source):
    own = {t.name for t in source.types}
    found = []
    for f in source.functions:
        tokens = TOKEN.findall(f.body)
        cast = len(tokens) <= 14 and ("as" in tokens or "from" in tokens) and ";" not in tokens
        turned = len(f.params) == 1 and f.params[0][1] in own | {"Self"} and f.returns not in ("", "bool") and "match" in tokens
        span = re.search(r"match \w+ \{\s*0 => 1,", f.body)
        signed = re.search(r"0x8000_0000|65536 \+|4294967296", f.body) and len(f.params) <= 2 and f.returns in ("u32", "u64", "i32") and len(tokens) < 60
        spelled = re.search(r"\w = \w \* 256 \+|\w = \w / 256;", f.body)
        if cast or turned or span or signed or spelled:
            found.append(place("4c", f, f.title(), f.returns))
    return found


def smaller_of_two(source):
    one = re.compile(r"^\{\s*(?:let [^;]*;\s*)*if ([\w:.]+) < ([\w:.]+) \{\s*return ([\w:.]+);\s*\}\s*([\w:.]+)\s*\}$")
    found = []
    for f in source.functions:
        for m in [one.match(f.body)] if one.match(f.body) else re.finditer(r"if ([\w:.]+) < ([\w:.]+) \{\s*return ([\w:.]+);\s*\}\s*(?:return )?([\w:.]+);?\s*\}", f.body):
            if {m[1], m[2]} == {m[3], m[4]}:
                found.append(place("4d", f, f.title(), f"{m[1]}, {m[2]}"))
    return found


def written_out(source):
    found = []
    for f in source.functions:
        words = len(re.findall(r"\w+\[\d+\] = ", f.body))
        if words >= 3 or re.search(r"\bprintln?!", f.body):
            found.append(place("4e", f, f.title(), f"{words} words" if words else "text"))
    return found


def by_field(source):
    names = "|".join(t.name for t in source.types if t.word == "struct")
    found = []
    for f in source.functions:
        for m in re.finditer(r"\b(?:%s) \{" % names, f.body):
            inner = f.body[m.end() : inside_end(f.body, m.end() - 1) - 1]
            zeros = len(re.findall(r"\w+: (?:0|false)\s*(?:,|$)", inner))
            copied = collections.Counter(m[1] for m in re.finditer(r"(\w+)\s*:\s*(?=\w+\.\1\b)", inner))
            if zeros >= 3 or sum(copied.values()) >= 3:
                found.append(place("4f", f, f.title(), f"{m[0][:-2]}: {zeros} zeros, {sum(copied.values())} copied", f.body_line + f.body.count("\n", 0, m.start())))
    return found


# ---- 5


def plain_params(f):
    return frozenset((n, k) for n, k in f.params if n != "self")


def groups_of_params(source):
    """The sets of three or more parameters that three or more functions have, each as large as it can be; functions for C not counted."""
    functions = [f for f in source.functions if not f.exported]
    sets = {plain_params(f) & plain_params(g) for f, g in itertools.combinations(functions, 2)}
    held = {s: [f for f in functions if s <= plain_params(f)] for s in sets if len(s) >= 3 and not is_part(s)}
    return {s: fs for s, fs in held.items() if len(fs) >= 3}


def is_part(group):
    """One slice with places and counts alone: that is point 6."""
    slices = sum(kind.startswith("&") for _, kind in group)
    return slices <= 1 and all(kind.startswith("&") or name in PLACES + COUNTS for name, kind in group)


def travelling(source):
    by_function = collections.defaultdict(list)
    for group, functions in groups_of_params(source).items():
        for f in functions:
            by_function[f].append(group)
    found = []
    for f, groups in by_function.items():
        best = max(groups, key=lambda g: (len(g), sorted(g)))
        found.append(place("5a", f, f.title(), ", ".join(n for n, _ in f.params if n in {name for name, _ in best})))
    return sorted(found)


def facts_of(f):
    """Each fact that a function asks, with slices and structs named by their types: the same fact of a slice of another name is the same."""
    kinds = {name: kind for name, kind in f.params if kind not in NUMBERS}
    for kind, _, text in f.clauses:
        if kind == "requires":
            for fact in conjuncts(text):
                yield re.sub(r"[A-Za-z_][\w']*", lambda m: f"<{kinds[m[0]]}>" if m[0] in kinds else m[0], re.sub(r"\.(?:old|new|now)\b", "", fact))


def conjuncts(text):
    """The parts of a clause that × joins, without the brackets around each."""
    parts, depth, start = [], 0, 0
    for i, c in enumerate(text):
        depth += (c == "(") - (c == ")")
        if c == "×" and depth == 0:
            parts.append(text[start:i])
            start = i + 1
    parts = [p.strip() for p in parts + [text[start:]]]
    return [q for p in parts for q in ([p] if not (p.startswith("(") and p.endswith(")") and "×" in p and len(parts) > 1) else conjuncts(p[1:-1]))]


def common_facts(source):
    asked = collections.defaultdict(set)
    for f in source.functions:
        for fact in facts_of(f):
            asked[fact.strip("() ")].add(f)
    return {fact: fs for fact, fs in asked.items() if len(fs) >= 3}


def repeated_facts(source):
    by_function = collections.defaultdict(list)
    for fact, functions in common_facts(source).items():
        for f in functions:
            by_function[f].append(fact)
    return sorted(place("5b", f, f.title(), "; ".join(sorted(facts))) for f, facts in by_function.items())


# ---- 6


def slices_of(f):
    return [n for n, k in f.params if re.match(r"&(?:'\w+ )?(?:mut )?\[[^;\]]*\]$", k)]


def numbers_of(f):
    return [n for n, k in f.params if k == "usize"]


def with_offsets(source):
    found = []
    for f in source.functions:
        offsets = [n for n in numbers_of(f) if n in PLACES]
        if slices_of(f) and offsets and not f.exported:
            found.append(place("6a", f, f.title(), f"{', '.join(slices_of(f))} with {', '.join(offsets)}"))
    return found


def with_counts(source):
    found = []
    for f in source.functions:
        counts = [n for n in numbers_of(f) if n in COUNTS]
        if slices_of(f) and counts and not any(n in PLACES for n in numbers_of(f)) and not f.exported:
            found.append(place("6d", f, f.title(), f"{', '.join(slices_of(f))} with {', '.join(counts)}"))
    return found


def offset_structs(source):
    structs = [t for t in source.types if t.word == "struct" and sum(k == "usize" for _, k in t.parts) > 1]
    return [place("6b", t, t.name, ", ".join(n for n, k in t.parts if k == "usize")) for t in structs]


def halving(source):
    return [place("6c", f, f.title()) for f in source.functions if re.search(r"\blo\b.*\(hi - lo\) / 2", f.body, re.S)]


def fixed_arrays(source):
    found = []
    for f in source.functions:
        kinds = [k for _, k in f.params if re.search(r"\[\w+; \w+\]", k)] + re.findall(r"\[\d\w*; \w+\]", f.body)
        if kinds and not f.exported:
            found.append(place("6e", f, f.title(), ", ".join(kinds)))
    return found


# ---- 7


def choosing(source):
    test = re.compile(r"\b(?:if|match) (?:!)?(?:\w+\.)?(mode|what|profile|costed|early|late|kind|told|half)\b")
    return [place("7a", f, f.title(), ", ".join(sorted(set(test.findall(f.body))))) for f in source.functions if test.search(f.body)]


def pointers(source):
    return [place("7b", f, f.title()) for f in source.functions if re.search(r"\bfn\s*\(|\bdyn\b", f.body + " ".join(k for _, k in f.params))]


# ---- what was found by reading alone

FINDERS = [
    own_enums, flag_fields, number_answers, number_constants, kind_params, twins, type_twins, loops, own_calls, comparing, copy_loops, conversions,
    smaller_of_two, written_out, by_field, travelling, repeated_facts, with_offsets, offset_structs, halving, with_counts, fixed_arrays, choosing, pointers,
]


def read_alone(source, found, lines):
    """The places that judged.txt names by a rule and no rule finds: they count where what they name still stands."""
    known = {(p.path, p.name, p.rule) for p in found}
    items = [(i, i.title()) for i in source.functions + source.constants] + [(t, t.name) for t in source.types]
    more = []
    for item, name in items:
        path = item.path.removeprefix("crates/").replace("/src/", "/")
        for file, wanted, rule, verdict, _ in lines:
            fits = len(rule) == 2 and verdict != "no" and wanted == name and fnmatch.fnmatchcase(path, file)
            if fits and (item.path, name, rule) not in known:
                known.add((item.path, name, rule))
                more.append(place(rule, item, name, "read"))
    return more


def all_places(source, lines):
    found = [p for finder in FINDERS for p in finder(source)]
    return found + read_alone(source, found, lines)
