#!/usr/bin/env python3
"""Makes samples/aquota.user, samples/quota.user and samples/quota.user32: the same handful of users in a tree file (vfsv1) and
in a flat file of each layout (vfsold and vfsold32); and samples/aquota.project, some projects in a tree file, with a file of their
names, projid, and the listing of which their use is the sum, projects.listing.

The layouts are in docs/FORMATS.md. Every grace period that runs is over, so the report of each file is the same on every day.
"""
import os
import struct

DAY = 86_400
EXPIRED = 1_577_836_800  # 1 January 2020
GRACE = 7 * DAY, 3 * DAY  # for blocks and for inodes
MAGIC = {"user": 0xD9C01F11, "project": 0xD9C03F14}

# uid: (bhard, bsoft, blocks, ihard, isoft, inodes, btime, itime), with blocks in KiB
USERS = {
    # root has no limits
    0: (0, 0, 1_284, 0, 0, 97, 0, 0),
    # within the limits
    1000: (5_242_880, 4_194_304, 3_145_728, 200_000, 150_000, 84_213, 0, 0),
    # over the soft limit of blocks, and not over that of inodes
    1001: (2_097_152, 1_048_576, 1_835_008, 50_000, 40_000, 39_999, EXPIRED, 0),
    # over the soft limit of inodes, and not over that of blocks
    1002: (2_097_152, 1_048_576, 835_008, 50_000, 40_000, 41_377, 0, EXPIRED),
    # over both soft limits
    1003: (524_288, 262_144, 300_144, 5_000, 4_000, 4_711, EXPIRED, EXPIRED),
    # a user without limits
    1004: (0, 0, 7_340_032, 0, 0, 310_552, 0, 0),
    # limits, and nothing used yet
    1005: (1_048_576, 524_288, 0, 10_000, 8_000, 0, 0, 0),
}

# The lines of a listing: owner, project, device, inode and blocks of 512 bytes. Inode 12 has two names.
LISTING = [
    (0, 0, 2049, 2, 8),
    (1000, 7, 2049, 11, 8),
    (1000, 7, 2049, 12, 4_194_304),
    (1000, 7, 2049, 12, 4_194_304),
    (1001, 7, 2049, 13, 24),
    (1000, 8, 2049, 21, 8),
    (1002, 8, 2049, 22, 6_291_456),
    (1002, 4_000_000_000, 2049, 31, 2_048),
]

# number of the project: its name, if any, and (bhard, bsoft, ihard, isoft, btime, itime)
PROJECTS = {
    # what belongs to no project
    0: (None, (0, 0, 0, 0, 0, 0)),
    # within the limits
    7: ("build", (4_194_304, 3_145_728, 2_000, 1_000, 0, 0)),
    # over the soft limit of blocks
    8: ("films", (4_194_304, 2_097_152, 100, 50, EXPIRED, 0)),
    # limits, and nothing used yet
    9: ("archive", (8_388_608, 4_194_304, 0, 0, 0, 0)),
    # numbers have 32 bits
    4_000_000_000: (None, (0, 0, 0, 0, 0, 0)),
}


def flat_file(records_of, time):
    """A record for each identifier, `struct v1_disk_dqblk`, whose two times are of this type: `Q` as 64-bit x86 writes them, in
    records of 40 bytes, or `I` as 32-bit x86 does, in records of 32. The times of record 0 are the grace periods of the file."""
    size = struct.calcsize(f"<6I2{time}")
    records = bytearray(size * (max(records_of) + 1))
    for number, numbers in records_of.items():
        struct.pack_into(f"<6I2{time}", records, size * number, *numbers)
    struct.pack_into(f"<2{time}", records, 24, *GRACE)
    return records


def data_block(records_of):
    """One block has room for 14 records. It is the only one with room left, so the list of those has no other."""
    block = struct.pack("<IIHxxxxxx", 0, 0, len(records_of))
    for number, (bhard, bsoft, blocks, ihard, isoft, inodes, btime, itime) in records_of.items():
        block += struct.pack("<I4x8Q", number, ihard, isoft, inodes, bhard, bsoft, 1024 * blocks, btime, itime)
    return block.ljust(1024, b"\0")


def tree_block(references):
    """References by a byte of the identifier."""
    return struct.pack("<256I", *(references.get(byte, 0) for byte in range(256)))


def tree_file(kind, records_of):
    """The header, the root, the block with the records, and the tree below the root, the lowest level first."""
    level = {number: 2 for number in records_of}
    blocks = [data_block(records_of)]
    for _ in range(3):
        above = {}
        for prefix in sorted({number >> 8 for number in level}):
            blocks.append(tree_block({number & 255: at for number, at in level.items() if number >> 8 == prefix}))
            above[prefix] = 1 + len(blocks)
        level = above
    header = struct.pack("<8I", MAGIC[kind], 1, *GRACE, 0, 2 + len(blocks), 0, 2)
    return header.ljust(1024, b"\0") + tree_block(level) + b"".join(blocks)


def projects():
    """The records of the projects, with their use out of the listing, in which an inode counts once."""
    records_of = {}
    of_inode = {inode: (project, blocks) for _, project, _, inode, blocks in LISTING}
    for number, (_, (bhard, bsoft, ihard, isoft, btime, itime)) in PROJECTS.items():
        own = [blocks for project, blocks in of_inode.values() if project == number]
        records_of[number] = bhard, bsoft, sum(own) // 2, ihard, isoft, len(own), btime, itime
    return records_of


def text(lines):
    return "".join(line + "\n" for line in lines).encode()


folder = os.path.dirname(os.path.abspath(__file__))
for name, contents in (
    ("aquota.user", tree_file("user", USERS)),
    ("quota.user", flat_file(USERS, "Q")),
    ("quota.user32", flat_file(USERS, "I")),
    ("aquota.project", tree_file("project", projects())),
    ("projid", text(["# names of projects"] + [f"{name}:{number}" for number, (name, _) in PROJECTS.items() if name])),
    ("projects.listing", text(" ".join(map(str, line)) for line in LISTING)),
):
    with open(os.path.join(folder, name), "wb") as file:
        file.write(contents)
