#!/usr/bin/env bash
# Looks whether docs/PROMISES.md and docs/ARCHITECTURE.md name what is there. In PROMISES what
# stands in brackets behind a sentence says it: `f`: `c` is a clause c of a function, type or trait f (where a type is named, of
# it or of its trait), `R.x` a field x of a record R, and any other name a function, type, definition or module. All of it has
# to stand in a crate that the heading or the row names, or in one that it stands on; where they name none, in any crate. Each
# row below a heading with names of crates has such a bracket. Other words are looked for where they have the form of a
# function with its type, of a definition or of a file. In ARCHITECTURE the files that the tables name have to be there. At
# last it looks whether the documents are short enough (tests/lengths.sh). Proves nothing, and takes a few seconds; ends with
# status 1 where something is not found, or is too long.
# usage: tests/promises.sh
cd "$(dirname "${BASH_SOURCE[0]}")/.." || exit 1
python3 - <<'PY' || exit
import functools
import os
import re
import sys

# Words of Rust and of the system that a promise may name, and no crate declares.
FOREIGN = {"Ok", "Err", "Some", "None", "Debug", "std::io::ErrorKind"}


def text_of(path):
    with open(path) as file:
        return file.read()


@functools.cache
def files_of(crate, part, ending):
    return [
        os.path.join(at, name)
        for at, _, names in os.walk(f"crates/{crate}/{part}")
        for name in names
        if name.endswith(ending)
    ]


def read_crates():
    """The crates on which each crate stands by itself, as crates.txt has them."""
    uses = {}
    for line in text_of("crates.txt").splitlines():
        name, colon, rest = line.split("#")[0].partition(":")
        if colon:
            uses[name.split()[0]] = rest.split()
    return {name: [it for it in rest if it in uses] for name, rest in uses.items()}


USES = read_crates()


@functools.cache
def below(crate):
    return frozenset(USES[crate]).union(*(below(it) for it in USES[crate]))


class Crate:
    """What a crate declares: its words, the clauses of each function, type and trait, and the fields of each record."""

    ITEM = re.compile(r"\b(fn|struct|enum|trait|type|const|mod|use|ghost)\s+(\w+)")
    IMPL = re.compile(r"^(?:unsafe )?impl\b(?:<[^{]*?>)?\s+(?:(\w+)[^{]*?\s+for\s+)?&?(?:mut )?(\w+)", re.M)
    CLAUSE = re.compile(r"^\s*(?:(?:ensures|requires|invariant)\*?|where)\s+(\w+)\s*\{|^\s*ghost\s+(\w+)(?::\s*\{| = )", re.M)
    DEFINED = re.compile(r"^(?:  (?=abbrev|record|data|unfoldable))?(?:(?:abbrev|unfoldable|type|pub|data|record)\s+)+((?:\w+'?\s+)+)(?:\([^)]*\)\s*|\{[^}]*\}\s*)*:", re.M)
    RECORD = re.compile(r"^(?:pub )?record\s+(\w+)((?:.*\n)(?:(?:[ \t].*)?\n)*)", re.M)

    def __init__(self, name):
        self.words, self.clauses, self.traits_of, self.fields = {name}, {}, {}, {}
        for path in files_of(name, "src", ".rt"):
            module = os.path.basename(path)[:-3]
            self.words.add(module)
            self.read_code(module, re.sub(r"//.*", "", text_of(path)))
        for path in files_of(name, "specs", ".antt"):
            self.words.add(os.path.basename(path)[:-5])
            text = re.sub(r"--.*", "", text_of(path))
            self.words.update(it for names in self.DEFINED.findall(text) for it in names.split())
            for record, body in self.RECORD.findall(text):
                names = re.findall(r"^\s+(?:pub\s+)?((?:\w+'?\s+)*\w+'?)\s*:", body, re.M)
                self.words.add(record)
                self.fields.setdefault(record, set()).update(it for row in names for it in row.split())

    def read_code(self, module, text):
        self.words.update(re.findall(r"^\s*(?:pub )?(\w+)\s*[:,({]", text, re.M))
        marks = [(it.start(), (it.group(2),)) for it in self.ITEM.finditer(text) if it.group(1) in ("fn", "trait")]
        owner_at = [(it.start(), tuple(filter(None, it.groups()))) for it in self.IMPL.finditer(text)]
        owner_at += [(it.start(), (it.group(2),)) for it in re.finditer(r"^(pub )?(?:trait|struct) (\w+)", text, re.M)]
        owner_at += [(it.start(), ()) for it in re.finditer(r"^(?:pub(?:\(\w+\))? )?fn ", text, re.M)]
        for _, found in self.ITEM.findall(text):
            self.words.add(found)
        for it in self.IMPL.finditer(text):
            if it.group(1):
                self.traits_of.setdefault(it.group(2), set()).add(it.group(1))
        marks.sort()
        owner_at.sort()
        for clause in self.CLAUSE.finditer(text):
            owners = [module]
            for known in (marks, owner_at):
                before = [names for at, names in known if at < clause.start()]
                owners += before[-1] if before else ()
            for owner in owners:
                self.clauses.setdefault(owner, set()).add(clause.group(1) or clause.group(2))


@functools.cache
def crate_of(name):
    return Crate(name)


def owners_of(subject, crates):
    """The names under which clauses of a function, or of a type and its traits, are known."""
    last = subject.split("::")[-1]
    found = {last}
    for crate in crates:
        found |= crate_of(crate).traits_of.get(last, set())
    return found


def is_there(path, crates):
    """Whether each part of a path is declared in one of the crates, the last one in the same as those before it."""
    parts = [it for it in path.split("::") if it]
    return any(all(it in crate_of(crate).words or it in USES for it in parts) for crate in crates)


def crates_of_row(heading, row):
    named = [it for it in re.findall(r"`(\w+)`", row) if it in USES]
    direct = [*heading, *named]
    return [*dict.fromkeys([*direct, *(it for crate in direct for it in sorted(below(crate)))])]


NAME = re.compile(r"^[A-Za-z_]\w*'?(?:::\w+)*$")


def missing_of_bracket(bracket, crates):
    """What a bracket names as saying a sentence and is not there."""
    for part in bracket.split(";"):
        subjects, is_clause = [], False
        for gap, token in re.findall(r"([^`]*)`([^`]*)`", part):
            is_clause = is_clause or ":" in gap
            record, dot, field = token.partition(".")
            if dot:
                if not any(field in crate_of(crate).fields.get(record, ()) for crate in crates):
                    yield f"field {field} of {record}"
            elif is_clause:
                for subject in subjects:
                    owners = owners_of(subject, crates)
                    if not any(token in crate_of(crate).clauses.get(it, ()) for crate in crates for it in owners):
                        yield f"clause {token} of {subject}"
            elif NAME.match(token):
                subjects.append(token)
                if token not in USES and not is_there(token, crates):
                    yield token


def missing_of_text(text, crates):
    """What a text names in the form of a function with its type, of a definition or of a file, and is not there."""
    for token in re.findall(r"`([^`]*)`", text):
        if token in FOREIGN:
            continue
        if re.fullmatch(r"(?:\w+/)*\w+\.(?:rt|antt|md|sh|py|txt)", token):
            if not is_file(token, crates):
                yield token
        elif re.fullmatch(r"\w+(?:::\w+)+|[A-Z]\w*[a-z]\w*", token) and not is_there(token, crates):
            yield token


def is_file(token, crates):
    if any(os.path.exists(f"{folder}{token}") for folder in ("", "crates/", "docs/", "tests/real_files/")):
        return True
    return any(
        path.endswith(f"/{token}")
        for crate in crates
        for part in ("src", "specs", "proofs")
        for path in files_of(crate, part, os.path.splitext(token)[1])
    )


BRACKET = re.compile(r"\s*\[([^\]]*)\]")


def blocks_of(text):
    """The headings, rows and paragraphs of a document, each with the number of its first line."""
    first, block = 0, []
    for number, line in enumerate([*text.splitlines(), ""], 1):
        if block and (not line.strip() or line.startswith(("#", "- ", "| "))):
            yield first, " ".join(block)
            block = []
        if line.strip():
            first = first if block else number
            block.append(line.strip())


def look_at_promises(path):
    chapter, section = [], []
    for number, block in blocks_of(text_of(path)):
        if block.startswith("#"):
            named = [it for it in re.findall(r"\w+", block) if it in USES]
            chapter, section = (chapter, named) if block.startswith("###") else (named, [])
            continue
        crates = crates_of_row([*section, *chapter], block) or USES
        brackets = BRACKET.findall(block)
        if (section or chapter) and block.startswith("- ") and not brackets:
            yield f"{path}:{number}: what says this row"
        for bracket in brackets:
            for it in missing_of_bracket(bracket, crates):
                yield f"{path}:{number}: {it}"
        for it in missing_of_text(BRACKET.sub("", block), USES):
            yield f"{path}:{number}: {it}"


def look_at_files(path):
    for number, line in enumerate(text_of(path).splitlines(), 1):
        if not line.startswith("| "):
            continue
        for token in re.findall(r"`([^`]*)`", line):
            if re.fullmatch(r"(?:[\w.]+/)*\w+\.(?:rt|antt|md|sh|py|txt|bash)|(?:bin|tests|bench|tools|docs)/\w+", token):
                if not is_file(token, USES):
                    yield f"{path}:{number}: {token}"


missing = [*look_at_promises("docs/PROMISES.md"), *look_at_files("docs/ARCHITECTURE.md")]
for it in missing:
    print(f"promises: not there: {it}")
if not missing:
    print("promises: what the documents name is there")
sys.exit(1 if missing else 0)
PY
exec tests/lengths.sh
