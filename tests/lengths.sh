#!/usr/bin/env bash
# Looks whether the documents are short enough to be read: how many words each has, as wc -w counts them, and how many words
# its sentences have on average. A sentence ends at a full stop, a question mark or an exclamation mark, and with the
# paragraph, the item of a list or the cell of a table that it stands in. Displays and headings have none, nor have cells of
# fewer than eight words besides what stands between backticks, which only name something. Takes less than a second; ends with
# status 1 where a document is longer than the table here allows, or its sentences are.
# usage: tests/lengths.sh
cd "$(dirname "${BASH_SOURCE[0]}")/.." || exit 1
exec python3 - <<'PY'
import re
import sys

# The file, the most words that it may have, and the most that a sentence of it may have on average.
LIMITS = [
    ("README.md", 700, 25),
    ("docs/ARCHITECTURE.md", 4500, 25),
    ("docs/COMMANDS.md", 6000, 25),
    ("docs/DECISIONS.md", 7000, 25),
    ("docs/PROMISES.md", 7000, 25),
]

CODE = re.compile(r"`[^`]*`")
END = re.compile(r"[.?!][*)\"']*(?=\s|$)")


def blocks(text):
    """The paragraphs, the items of lists and the cells of tables, without displays, headings and marks."""
    text = re.sub(r"(?ms)^```.*?^```$|<!--.*?-->", "", text)
    text = re.sub(r"(?m)^#.*$|^\|.*\n\|[-| ]+\|$", "", text)
    for part in re.split(r"\n\s*\n|\n(?=\s*(?:[-*] |\d+\. ))|\n(?=\|)", text):
        if not part.lstrip().startswith("|"):
            yield re.sub(r"^\s*(?:[-*]|\d+\.) ", "", part)
            continue
        for cell in part.strip().strip("|").split("|"):
            if len(CODE.sub("", cell).split()) >= 8:
                yield cell


def sentences(text):
    """How many words each sentence has."""
    for block in blocks(text):
        plain = CODE.sub(lambda code: re.sub(r"[.?!]", "", code.group()), block)
        for sentence in END.split(plain):
            if re.search(r"\w", sentence):
                yield len(sentence.split())


failed = False
for path, most_words, most_mean in LIMITS:
    with open(path) as file:
        text = file.read()
    words, counts = len(text.split()), list(sentences(text))
    mean = sum(counts) / max(1, len(counts))
    is_longer = words > most_words or mean > most_mean
    failed |= is_longer
    print(
        f"lengths: {path}: {words} words of at most {most_words}, {mean:.1f} a sentence of at most {most_mean}"
        + (": that is too long" if is_longer else "")
    )
sys.exit(failed)
PY
