"""Reads crates/*/src/*.rt of the checkout, or of a commit, as functions, types and constants; count.py counts over them."""

import os
import re
import subprocess
import tarfile

TOP = os.path.realpath(os.path.join(os.path.dirname(__file__), "..", ".."))
NAME = re.compile(r"[A-Za-z_]\w*")
ITEM = re.compile(r"\b(?:fn|struct|enum|trait|impl|const)\b")
CLOSERS = {"(": ")", "[": "]", "{": "}"}


def of_commit(commit, folders):
    """{path: text} of the .rt and .antt files below crates/*/FOLDER at a commit, read by git archive."""
    git = subprocess.Popen(["git", "-C", TOP, "archive", commit, "crates"], stdout=subprocess.PIPE)
    texts = {}
    with tarfile.open(fileobj=git.stdout, mode="r|") as tar:
        for entry in tar:
            if entry.isfile() and wanted(entry.name, folders):
                texts[entry.name] = tar.extractfile(entry).read().decode()
    if git.wait():
        raise SystemExit(f"no commit {commit}")
    return texts


def of_checkout(folders):
    """The same of the files as they stand."""
    texts = {}
    for at, below, names in os.walk(os.path.join(TOP, "crates")):
        below[:] = [b for b in below if b not in ("out", "target")]
        for name in names:
            path = os.path.relpath(os.path.join(at, name), TOP)
            if wanted(path, folders):
                with open(os.path.join(TOP, path), encoding="utf-8") as file:
                    texts[path] = file.read()
    return texts


def wanted(path, folders):
    parts = path.split("/")
    return len(parts) > 3 and parts[0] == "crates" and parts[2] in folders and path.endswith((".rt", ".antt"))


def texts_of(commit, *folders):
    return dict(sorted((of_commit(commit, folders) if commit else of_checkout(folders)).items()))


def blanked(text):
    """The text with comments, strings and characters blanked, as long as it was."""
    taken = re.compile(r"//[^\n]*|b?\"(?:\\.|[^\"\\])*\"|b?'(?:\\[^\n]|[^'\\\n])'")
    return taken.sub(lambda m: re.sub(r"[^\n]", " ", m[0]), text)


def behind(text, at):
    """Where the bracket that opens at `at` is closed: the place behind."""
    opener, closer, depth = text[at], CLOSERS[text[at]], 0
    for i in range(at, len(text)):
        depth += (text[i] == opener) - (text[i] == closer)
        if depth == 0:
            return i + 1
    return len(text)


def squeezed(text):
    return re.sub(r"\s+", " ", text).strip()


def parted(text):
    """The parts between the commas that stand in no bracket."""
    parts, depth, start = [], 0, 0
    for i, c in enumerate(text):
        depth += (c in "([{<") - (c in ")]}") - (c == ">" and text[i - 1] != "-")
        if c == "," and depth == 0:
            parts.append(text[start:i])
            start = i + 1
    return [squeezed(p) for p in parts + [text[start:]] if p.strip()]


class Function:
    """name, owner (the type of the impl or trait around it, or ''), params [(name, type)], returns, clauses [(kind, name, text)], body, line, public."""

    def __init__(self, path, text, clear, at, owner):
        self.path, self.owner, self.crate = path, owner, path.split("/")[1]
        self.line = clear.count("\n", 0, at) + 1
        self.public = bool(re.search(r"\bpub\s+(?:extern\s*(?:\"C\")?\s*|unsafe\s+|const\s+)*$", text[max(0, at - 40) : at]))
        self.exported = "no_mangle" in text[max(0, at - 60) : at]
        name = NAME.search(clear, at + 2)
        self.name = name[0]
        i = clear.index("(", generics_end(clear, name.end()))
        end = behind(clear, i)
        self.params = [split_param(p) for p in parted(clear[i + 1 : end - 1])]
        self.clauses, self.returns, self.body, self.body_line = [], "", "", self.line
        self.read_rest(text, clear, end)

    def read_rest(self, text, clear, i):
        returns_from = i
        while i < len(clear):
            clause = re.compile(r"\b(requires|ensures)\b\s*(\w*)\s*(?=\{)").match(clear, i)
            if clause or clear[i] in "{;":
                if returns_from is not None:
                    self.returns = squeezed(clear[returns_from:i]).removeprefix("->").strip()
                    returns_from = None
            if clause:
                end = behind(clear, clause.end())
                self.clauses.append((clause[1], clause[2], squeezed(text[clause.end() + 1 : end - 1])))
                i = end
            elif clear[i] == "{":
                self.body = clear[i : behind(clear, i)]
                self.body_line = clear.count("\n", 0, i) + 1
                return
            elif clear[i] == ";":
                return
            else:
                i += 1

    def place(self):
        return f"{self.path}:{self.line}"

    def title(self):
        return f"{self.owner}::{self.name}" if self.owner else self.name


def generics_end(clear, i):
    if clear[i : i + 1] != "<":
        return i
    depth = 0
    for j in range(i, len(clear)):
        depth += (clear[j] == "<") - (clear[j] == ">" and clear[j - 1] != "-")
        if depth == 0:
            return j + 1
    return i


def split_param(text):
    name, _, kind = text.partition(":")
    return re.sub(r"^(?:mut|ref)\s+", "", name.strip()), squeezed(kind)


class Type:
    """A struct or an enum: word, name, fields [(name, type)] or variants [(name, types)], line."""

    def __init__(self, path, clear, at, word):
        self.path, self.word, self.crate = path, word, path.split("/")[1]
        self.line = clear.count("\n", 0, at) + 1
        name = NAME.search(clear, at + len(word))
        self.name, self.parts = name[0], []
        i = generics_end(clear, name.end())
        while i < len(clear) and clear[i] not in "{;(":
            i += 1
        if clear[i : i + 1] in ("{", "("):
            self.parts = [split_part(p) for p in parted(clear[i + 1 : behind(clear, i) - 1])]

    def place(self):
        return f"{self.path}:{self.line}"


def split_part(text):
    text = re.sub(r"#\[[^\]]*\]\s*|^pub\s+|^ghost\s+", "", text)
    at = re.search(r"[:({=]", text)
    if not at:
        return text, ""
    inner = text[at.start() :].strip()
    return text[: at.start()].strip(), inner[1:-1].strip() if inner[0] in "({" else inner[1:].strip()


class Constant:
    def __init__(self, path, clear, at, owner):
        self.path, self.owner, self.crate = path, owner, path.split("/")[1]
        self.line = clear.count("\n", 0, at) + 1
        found = re.compile(r"const\s+(\w+)\s*:\s*([^=;]+)=\s*([^;]*);").match(clear, at)
        self.name, self.kind, self.value = (found[1], squeezed(found[2]), squeezed(found[3])) if found else ("", "", "")

    def place(self):
        return f"{self.path}:{self.line}"

    def title(self):
        return f"{self.owner}::{self.name}" if self.owner else self.name


def without_clauses(text, clear):
    """clear with ghost lines, ghost items and clauses blanked: what is left is what runs."""
    out = re.sub(r"ghost use [^;]*;", lambda m: re.sub(r"[^\n]", " ", m[0]), clear)
    for found in list(re.finditer(r"\b(?:requires|ensures)\b\s*\w*\s*\{|\bghost\s+[\w']+\s*[:=]\s*\{", out)):
        end = behind(out, found.end() - 1)
        out = out[: found.start()] + re.sub(r"[^\n]", " ", out[found.start() : end]) + out[end:]
    return out


def items_of(path, text):
    """The functions, types and constants of a file, tests left out."""
    clear = blanked(text)
    runs = without_clauses(text, clear)
    functions, types, constants, owners = [], [], [], []
    for found in ITEM.finditer(runs):
        at, word = found.start(), found[0]
        while owners and owners[-1][0] <= at:
            owners.pop()
        owner = owners[-1][1] if owners else ""
        if word == "fn" and NAME.match(runs[at + 2 :].lstrip()):
            functions.append(Function(path, text, clear, at, owner))
        elif word in ("struct", "enum"):
            types.append(Type(path, runs, at, word))
        elif word == "const" and re.match(r"const\s+\w+\s*:[^=;>)]*=", runs[at:]):
            constants.append(Constant(path, runs, at, owner))
        elif word in ("impl", "trait"):
            opens = runs.find("{", at)
            name = squeezed(runs[at + len(word) : opens])
            owners.append((behind(runs, opens), re.sub(r"^<[^>]*>\s*|\s*where .*$", "", name)))
    return [f for f in functions if f.name], types, [c for c in constants if c.name]


class Source:
    """All of crates/*/src of the checkout (commit None) or of a commit."""

    def __init__(self, commit):
        self.texts = texts_of(commit, "src")
        self.functions, self.types, self.constants = [], [], []
        for path, text in self.texts.items():
            functions, types, constants = items_of(path, text)
            self.functions += functions
            self.types += types
            self.constants += constants
