"""Reads the specifications, proofs and sources of the crates as far as names go: which file has which definition, in which
lines, what each one names, and what an import brings."""

import os
import re

TOP = os.path.dirname(os.path.dirname(os.path.abspath(__file__)))
MODIFIERS = re.compile(r"((?:(?:abbrev|pub|unfoldable|pattern) )*)(record |data |ruleset |axiom )?([^\s(){},;]+)")
HEAD = re.compile(r"(abbrev|pub|unfoldable|record|data|pattern|ruleset|axiom) (?!use |mod |open )|[^\s(]+ :(\s|$)")
USE = re.compile(r"(\s*)((?:pub |ghost )*)use (\S+?)(?:\.\{([^}]*)\})?(?: as (\S+?))?;?\s*$")
WORD = re.compile(r"[^\s(){}\[\],;.\"∷]+|[.(){}\[\],;∷\"]")
COMMENT = re.compile(r"(?:^|(?<=\s))--(?=\s|$).*")
TEXT = re.compile(r'"(?:[^"\\\n]|\\.)*"')


class Import:
    """One `use` line: the lines it takes, the module, and the names that it brings, each with the name it has here."""

    def __init__(self, first, last, text):
        found = USE.match(text)
        self.first, self.last, self.text = first, last, text
        self.indent, self.words, self.module = found.group(1), found.group(2), found.group(3)
        self.names, self.alias = None, found.group(5)
        if found.group(4) is not None:
            pairs = [name.split(" as ") for name in re.split(r"\s*,\s*", found.group(4).strip().strip(",")) if name]
            self.names = [(pair[0].strip(), pair[-1].strip()) for pair in pairs]

    def line(self, names):
        """The same line with these names alone."""
        shown = [name if name == here else f"{name} as {here}" for name, here in names]
        end = ";" if self.text.rstrip().endswith(";") else ""
        return f"{self.indent}{self.words}use {self.module}.{{{', '.join(shown)}}}{end}"


class Definition:
    """A definition with the comment above it: its name, its lines counted from 1, and the names that it brings in besides."""

    def __init__(self, source, name, kind, is_public, first, last):
        self.source, self.name, self.kind, self.is_public = source, name, kind, is_public
        self.first, self.last = first, last
        self.also = []
        if kind == "data":
            self.also = re.findall(r"^  ((?:[^\s:]+ )+):", self.text(), re.M)
            self.also = [name for names in self.also for name in names.split()]

    def text(self):
        return "\n".join(self.source.lines[self.first - 1:self.last])

    def size(self):
        return self.last - self.first + 1

    def words(self):
        return words_of(self.text())


class Source:
    """An .antt file."""

    def __init__(self, path):
        self.path = path
        parts = path[:-len(".antt")].split("/")
        self.crate, self.module = parts[1], "Rattle." + ".".join(parts[1:])
        with open(os.path.join(TOP, path), encoding="utf-8") as file:
            self.lines = file.read().split("\n")
        while self.lines and not self.lines[-1]:
            self.lines.pop()
        self.imports, self.definitions, self.headings = [], [], []
        self.read()
        self.own = {name: it for it in self.definitions for name in [it.name, *it.also]}

    def read(self):
        """Finds the imports and the definitions, also those of sections, which stand deeper by two places. A comment belongs
        to what stands right below it, and is a heading where nothing does."""
        start, heads, sections = None, [], []
        for at, whole in enumerate(self.lines, 1):
            line = whole.lstrip(" ")
            if not line and start and self.lines[start - 1].lstrip().startswith("--"):
                self.headings.append((start, at - 1))
                start = None
            while line and len(whole) - len(line) < 2 * len(sections):
                sections.pop()
            if not line or len(whole) - len(line) != 2 * len(sections):
                continue
            if re.match(r"(pub )?use ", line):
                start = None
                self.imports.append(Import(at, at, whole))
            elif line.startswith("--") or re.match(r"infix[lr]? ", line):
                start = start or at
            elif self.is_head(line):
                heads.append((start or at, at, sections[-1] if sections else None))
                start = None
            elif line.startswith("module "):
                start = start or at
                sections.append(at)
            else:
                start = None
        starts = sorted([first for first, _, _ in heads] + [first for first, _ in self.headings] + [len(self.lines) + 1])
        for head in heads:
            self.add(head, next(at for at in starts if at > head[0]) - 1)

    def is_head(self, line):
        """Whether a definition begins here: by a word of its own, or, where it is private, by its name and a colon."""
        return bool(HEAD.match(line))

    def add(self, head, last):
        found = MODIFIERS.match(self.lines[head[1] - 1].strip())
        while not self.lines[last - 1].strip():
            last -= 1
        kind = (found.group(2) or "").strip()
        self.definitions.append(Definition(self, found.group(3), kind, "pub" in found.group(1), head[0], last))
        self.definitions[-1].head, self.definitions[-1].section = head[1], head[2]

    def scope(self):
        return scope_of(self.imports)

    def modules(self):
        """The modules that have a name of their own here."""
        return modules_of(self.imports)


def scope_of(imports):
    """What each imported name means: its module and the name it has there. Constructors of two types may share a name."""
    found = {}
    for it in imports:
        for name, here in it.names or []:
            found.setdefault(here, []).append((it.module, name))
    return found


def modules_of(imports):
    return {it.alias or it.module.rsplit(".", 1)[-1]: it.module for it in imports if it.names is None}


def words_of(text):
    """The words of a text that may name something, but for fields behind a dot, and each `module.name` that stands there."""
    text = COMMENT.sub("", text) if "--" not in text else "\n".join(COMMENT.sub("", line) for line in text.split("\n"))
    text = TEXT.sub('"', text)
    singles, pairs = set(), set()
    for line in text.split("\n"):
        found = list(WORD.finditer(line))
        for at, word in enumerate(found):
            one = word.group()
            behind_dot = at > 0 and found[at - 1].group() == "." and found[at - 1].end() == word.start()
            if behind_dot and at > 1 and found[at - 2].end() == found[at - 1].start() and found[at - 2].group() not in ")]}":
                pairs.add((found[at - 2].group(), one))
            else:
                singles.add(one)
            # a list, and not the cases of a match
            if one == "[" and line[word.end():word.end() + 1].strip():
                singles.add("[]")
    return singles, pairs


def names_in(words, names):
    """Those of the names that these words use: also an operator, of which its own parts stand there, and a list."""
    return {name for name in names if stands_in(words, name)}


def stands_in(words, name):
    """Whether a name stands there, also one with places for its arguments: then each of its parts does."""
    if name in words:
        return True
    return "◌" in name and all(part in words for part in name.split("◌") if part)


def antt_files(pattern="specs"):
    """The .antt files of this kind below each crate, in order."""
    found = []
    for crate in sorted(os.listdir(os.path.join(TOP, "crates"))):
        for folder, _, files in os.walk(os.path.join(TOP, "crates", crate, pattern)):
            found += [os.path.relpath(os.path.join(folder, name), TOP) for name in files if name.endswith(".antt")]
    return sorted(found)


def rt_files():
    found = []
    for crate in sorted(os.listdir(os.path.join(TOP, "crates"))):
        for folder, _, files in os.walk(os.path.join(TOP, "crates", crate, "src")):
            found += [os.path.relpath(os.path.join(folder, name), TOP) for name in files if name.endswith(".rt")]
    return sorted(found)


def read_specs():
    """The specification files by their modules, but for those that name the others."""
    sources = [Source(path) for path in antt_files("specs") if not path.endswith("/Lib.antt")]
    return {source.module: source for source in sources}


def resolve(specs, handed, module, name):
    """The definition that a name of a module is, where it is one of the repository's specifications."""
    source = specs.get(handed.get(module, module))
    if source is not None:
        if name in source.own:
            return source.own[name]
        found = [resolve(specs, handed, *origin) for origin in source.scope().get(name, [])]
        return next((one for one in found if one), None)
    # a constructor behind its type
    above, _, last = module.rpartition(".")
    return specs[above].own.get(last) if above in specs else None


def handed_on():
    """The modules that a Lib.antt hands on, by the name that they have there."""
    found = {}
    for path in antt_files("specs"):
        if path.endswith("/Lib.antt"):
            crate = path.split("/")[1]
            with open(os.path.join(TOP, path), encoding="utf-8") as file:
                for line in file:
                    if line.startswith("pub use "):
                        module = line.split()[2]
                        found[f"Rattle.{crate}.specs.{module.rsplit('.', 1)[-1]}"] = module
    return found


def bound_in(definition):
    """The variables that the clauses of a definition and its functions bind, which hide what has their names outside."""
    text, bound = definition.text(), set()
    head = re.escape(definition.name)
    for clause in re.findall(rf"^ *{head} ([^:=→]*?) =(?=\s|$)", text, re.M):
        bound |= set(re.findall(r"(?<![^\s(])([a-z_][^\s(){}]*)", clause))
    for binder in re.findall(r"λ ([^.:]*)\.", text):
        bound |= set(re.findall(r"(?<![^\s(])([a-z_][^\s(){}]*)", binder))
    return bound
