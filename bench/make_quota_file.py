#!/usr/bin/env python3
"""Makes a large quota file of users and a text dump of it: make_quota_file.py flat|flat32|tree|spread FILE DUMP

flat     a full flat file, of 1,048,576 users with limits and usage: vfsold, whose records have 40 bytes
flat32   the same of vfsold32, whose records have 32
tree     a tree file of vfsv1 with the users 0 to 999,999. Their records fill one data block after another, and the tree
         stands behind these
spread   the same with the multiples of 7 up to 6,999,993. Each 16th data block has an unused entry, 1,000 blocks are
         free, and all blocks but the header and the root are shuffled: from the last one on each changes places with one
         of those up to it, which the recurrence x -> (1,664,525 x + 1,013,904,223) mod 2^32 chooses

A line of the dump has the identifier, the use, soft and hard limit of blocks and their timer, and the same of inodes.
"""
import os
import sys

sys.path.insert(0, os.path.join(os.path.dirname(os.path.abspath(__file__)), "..", "tests"))
from quota_files import (  # noqa: E402
    BLOCK,
    MOST_FLAT_RECORDS,
    VERSIONS,
    WEEK,
    data_block,
    flat_record,
    free_block,
    header,
    tree_block,
)

NOW = 1_700_000_000
COUNT = 1_000_000
VERSION = 1
PER_BLOCK = VERSIONS[VERSION][2]
ROOT = 1


def row(uid):
    """What a line of the dump has behind the identifier."""
    bsoft, bhard = 100 + uid % 1000, 200 + uid % 1000
    blocks, inodes = uid * 37 % 2000, uid * 7 % 60
    return blocks, bsoft, bhard, NOW + uid % 7 * 86_400, inodes, 40, 50, NOW + uid % 5 * 3_600


def numbers(uid):
    """The same as a quota file has it."""
    use, bsoft, bhard, btime, inodes, isoft, ihard, itime = row(uid)
    return ihard, isoft, inodes, bhard, bsoft, use * 1024, btime, itime


# ---- A flat file


def flat(form):
    """The lines of the dump, and the file. The timers of the user 0 are its grace periods, and he has none."""
    use, bsoft, bhard, _, inodes, isoft, ihard, _ = row(0)
    rows = [(use, bsoft, bhard, 0, inodes, isoft, ihard, 0), *map(row, range(1, MOST_FLAT_RECORDS))]
    records = [flat_record(form, (*numbers(0)[:6], WEEK, WEEK))]
    records += (flat_record(form, numbers(uid)) for uid in range(1, MOST_FLAT_RECORDS))
    return enumerate(rows), b"".join(records)


# ---- A tree file


def shared_out(uids, room):
    """The users of each data block, one after another, where the block of a number has so much room."""
    parts, at = [], 0
    while at < len(uids):
        parts.append(uids[at : at + room(len(parts))])
        at += len(parts[-1])
    return parts


def levels(leaves):
    """The tree blocks of each level, the lowest first: what each refers to, by its place below the block above it."""
    above = []
    for _ in range(4):
        blocks = {}
        for key in leaves:
            blocks.setdefault(key // 256, []).append(key)
        above.append(blocks)
        leaves = blocks
    return above


def shuffle(numbers):
    x = 1
    for at in range(len(numbers) - 1, 0, -1):
        x = (1_664_525 * x + 1_013_904_223) % 2**32
        other = x * (at + 1) >> 32
        numbers[at], numbers[other] = numbers[other], numbers[at]


def chain(numbers):
    """Each number of a list with the one behind it and the one before it, or 0."""
    return zip(numbers, numbers[1:] + [0], [0] + numbers[:-1])


def tree(is_spread):
    """The lines of the dump, and the file."""
    uids = [uid * (7 if is_spread else 1) for uid in range(COUNT)]
    parts = shared_out(uids, lambda at: PER_BLOCK - (is_spread and at % 16 == 15))
    above = levels(uids)
    free = 1_000 if is_spread else 0
    count = 2 + len(parts) + free + sum(len(level) for level in above[:-1])
    places = list(range(2, count))
    if is_spread:
        shuffle(places)

    data, rest = places[: len(parts)], iter(places[len(parts) :])
    unused = [next(rest) for _ in range(free)]
    listed = [number for number, part in zip(data, parts) if len(part) < PER_BLOCK]
    links = {number: (following, before) for number, following, before in chain(listed)}
    head = lambda members: members[0] if members else 0
    blocks = {0: header("user", VERSION, (WEEK, WEEK), count, head(unused), head(listed))}
    for number, following, _ in chain(unused):
        blocks[number] = free_block(following)
    below = {}
    for number, part in zip(data, parts):
        blocks[number] = data_block(VERSION, [(uid, numbers(uid)) for uid in part], *links.get(number, (0, 0)))
        below.update(dict.fromkeys(part, number))
    for level in above:
        own = {key: next(rest, ROOT) for key in level}
        for key, keys in level.items():
            blocks[own[key]] = tree_block({it % 256: below[it] for it in keys})
        below = own
    return ((uid, row(uid)) for uid in uids), b"".join(blocks[number].ljust(BLOCK, b"\0") for number in range(count))


# ---- All of them

MADE = {
    "flat": lambda: flat("vfsold"),
    "flat32": lambda: flat("vfsold32"),
    "tree": lambda: tree(False),
    "spread": lambda: tree(True),
}


def main(words):
    if len(words) != 3 or words[0] not in MADE:
        sys.exit(__doc__)
    lines, made = MADE[words[0]]()
    with open(words[1], "wb") as file:
        file.write(made)
    with open(words[2], "w") as dump:
        for uid, numbers_of in lines:
            dump.write(" ".join(map(str, (uid, *numbers_of))) + "\n")


main(sys.argv[1:])
