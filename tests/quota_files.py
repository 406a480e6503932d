"""Quota files and undo files, as docs/FORMATS.md has them, word by word: their parts as bytes, and a reader to be compared
with the program, which says what a file has, and whether a damage that is told of it holds."""
import struct

BLOCK = 1024
MOST_BLOCKS = 4_194_304
MOST_FLAT_RECORDS = 1_048_576
WEEK = 604_800
MAGIC = {"user": 0xD9C01F11, "group": 0xD9C01927, "project": 0xD9C03F14}
# Of each version of a tree file: its format, an entry, and how many a data block has.
VERSIONS = [("vfsv0", struct.Struct("<6I3Q"), 21), ("vfsv1", struct.Struct("<2I8Q"), 14)]
# Of each format of a flat file: a record.
FLAT = {"vfsold": struct.Struct("<6I2Q"), "vfsold32": struct.Struct("<8I")}
# The numbers of a record, in the order of a tree file; the space is in bytes.
FIELDS = ("ihard", "isoft", "inodes", "bhard", "bsoft", "space", "btime", "itime")
# The header of a tree file: the magic number, the version, both grace periods, flags, how many blocks there are, and
# the first block of the free list and of the entry list. What a data block begins with: the next block of its list and
# the one before, how many entries it has, and bytes without a meaning. A tree block.
HEADER, DATA_HEAD, TREE = struct.Struct("<8I"), struct.Struct("<2IH6s"), struct.Struct("<256I")
# An undo file: its gate, the length of the file and how many ranges it saves; the place and the length of each; and how
# many there are at most.
UNDO_HEAD, SPAN_HEAD, SPANS = struct.Struct("<B7xQI"), struct.Struct("<QH6x"), 12


class Refused(Exception):
    """The file is refused for this cause, which is what stands behind its name in the error line."""


class Unsound(Exception):
    """The file is damaged; this is one of the things that are wrong with it."""


def want(holds, *words):
    if not holds:
        raise Unsound(" ".join(map(str, words)))


# ---- The parts of a file


def flat_record(form, numbers):
    """A record of a flat file with the numbers of FIELDS. Its space is in KiB, rounded down."""
    ihard, isoft, inodes, bhard, bsoft, space, btime, itime = numbers
    return FLAT[form].pack(bhard, bsoft, space // 1024, ihard, isoft, inodes, btime, itime)


def header(kind, version, grace, count, free=0, first=0, flags=0):
    """The header of a tree file, without the rest of its block."""
    return HEADER.pack(MAGIC[kind], version, *grace, flags, count, free, first)


def free_block(following):
    return struct.pack("<I", following).ljust(BLOCK, b"\0")


def tree_block(references):
    """References by a byte of the identifier."""
    return TREE.pack(*(references.get(byte, 0) for byte in range(256)))


def entry(version, id, numbers, padding=0):
    """The entry of an identifier with the numbers of FIELDS; one of version 1 has four bytes without a meaning, too."""
    return VERSIONS[version][1].pack(id, *(padding,) * version, *numbers)


def data_block(version, records, following=0, before=0):
    """Records, each with its identifier, as the first entries of a block."""
    entries = [entry(version, id, numbers) for id, numbers in records]
    return b"".join([DATA_HEAD.pack(following, before, len(entries), b""), *entries]).ljust(BLOCK, b"\0")


def undo_file(length, spans):
    """An undo file with an open gate, which saves these bytes, each with their place, of a file of this length."""
    undo = UNDO_HEAD.pack(1, length, len(spans)).ljust(BLOCK, b"\0")
    return undo + b"".join(SPAN_HEAD.pack(at, len(saved)) + saved.ljust(BLOCK, b"\0") for at, saved in spans)


def recovered(data, undo):
    """What a file is once a command has opened it beside an undo file; what is missing of that counts as 0."""
    size = SPAN_HEAD.size + BLOCK
    undo = bytes(undo).ljust(BLOCK + size * SPANS, b"\0")
    gate, length, count = UNDO_HEAD.unpack_from(undo)
    if gate != 1 or length > len(data) or count > SPANS:
        return data
    new = bytearray(data)
    for start in range(BLOCK, BLOCK + size * count, size):
        at, saved = SPAN_HEAD.unpack_from(undo, start)
        if saved > BLOCK or at > 2**42 or (saved and at + saved > length):
            return data
        new[at : at + saved] = undo[start + SPAN_HEAD.size :][:saved]
    return bytes(new[:length])


# ---- What a file stands for


class Record:
    """Limits, use and timers of an identifier; the space is in bytes."""

    __slots__ = FIELDS

    def __init__(self, *numbers):
        for name, number in zip(FIELDS, numbers or (0,) * len(FIELDS)):
            setattr(self, name, number)

    def numbers(self):
        return tuple(getattr(self, name) for name in FIELDS)

    def kib(self):
        return -(-self.space // 1024)

    def is_null(self):
        return not any(self.numbers()[:6])


class Value:
    """What a quota file stands for."""

    def __init__(self, kind, form, grace, records):
        self.kind, self.form, self.grace, self.records = kind, form, grace, records


def flat_value(data, kind, form):
    """What a flat file of a format stands for."""
    flat = FLAT[form]
    if len(data) > MOST_FLAT_RECORDS * flat.size:
        raise Refused("too large")
    if len(data) % flat.size:
        raise Refused("damaged: PartialRecord at record %d" % (len(data) // flat.size))
    records, grace = {}, (WEEK, WEEK)
    for id, (bhard, bsoft, kib, ihard, isoft, inodes, btime, itime) in enumerate(flat.iter_unpack(data)):
        if id == 0:
            grace, btime, itime = (btime or WEEK, itime or WEEK), 0, 0
        numbers = (ihard, isoft, inodes, bhard, bsoft, kib * 1024, btime, itime)
        if any(numbers):
            records[id] = Record(*numbers)
    return Value(kind, form, grace, records)


class Tree:
    """A tree file with an accepted header, of a kind and of the format that is asked for, where one is."""

    def __init__(self, data, kind, asked):
        head = bytes(data[:BLOCK]).ljust(BLOCK, b"\0")
        magic, version, bgrace, igrace, _, self.count, self.free, self.first = HEADER.unpack_from(head)
        if magic not in MAGIC.values():
            raise Refused("not a quota file")
        if magic != MAGIC[kind]:
            raise Refused("wrong kind")
        if version > 1:
            raise Refused("unknown version")
        if self.count < 2:
            raise Refused("bad block count")
        self.form, self.entry, self.room = VERSIONS[version]
        if asked not in (None, self.form):
            raise Refused("other format")
        if self.count > MOST_BLOCKS:
            raise Refused("too large")
        self.kind, self.grace, self.data = kind, (bgrace, igrace), data

    def block(self, number):
        """The bytes of a block; those behind the end of the file are 0."""
        return bytes(self.data[number * BLOCK : (number + 1) * BLOCK]).ljust(BLOCK, b"\0")

    def words(self, number):
        return TREE.unpack(self.block(number))

    def next_of(self, number):
        return self.words(number)[0]

    def leads(self, number):
        """Whether a reference or a link leads to a block."""
        return 0 < number < self.count

    def entries(self, number):
        """The places of the used entries of a block, each with its bytes."""
        block, size = self.block(number), self.entry.size
        all_of = [(place, block[16 + size * place :][:size]) for place in range(self.room)]
        return [(place, entry) for place, entry in all_of if any(entry)]

    def used_ids(self, number):
        return [int.from_bytes(entry[:4], "little") for _, entry in self.entries(number)]

    def record(self, entry):
        """The identifier and the record of an entry."""
        id, *_ = fields = self.entry.unpack(entry)
        numbers = fields[-8:]
        if id == 0 and numbers == (0, 0, 0, 0, 0, 0, 0, 1):
            numbers = (0,) * 8
        return id, Record(*numbers)

    def chain(self, head):
        """The blocks of a list, and the number that ends it."""
        met, at = {}, head
        while self.leads(at) and at not in met:
            met[at] = True
            at = self.next_of(at)
        return list(met), at

    def value(self):
        """What the file stands for, where it is sound."""
        want(self.count == 2 or len(self.data) >= self.count * BLOCK, "Short")
        roles, leaves, records, roomy = {0}, {}, {}, set()

        def take(number, role):
            want(self.leads(number), role, number, "is outside")
            want(number not in roles, role, number, "has another role too")
            roles.add(number)

        def walk(number, level, before):
            take(number, "tree")
            words = self.words(number)
            want(level == 0 or any(words), "tree block", number, "is empty")
            for at, word in enumerate(words):
                if word and level < 3:
                    walk(word, level + 1, before * 256 + at)
                elif word:
                    leaves.setdefault(word, set()).add(before * 256 + at)

        walk(1, 0, 0)
        for number, ids in leaves.items():
            take(number, "data")
            used = [self.record(entry) for _, entry in self.entries(number)]
            want(self.stated(number) == len(used), "data block", number, "says another number")
            want(len(used) == len(ids) and {id for id, _ in used} == ids, "data block", number, "has other entries")
            if len(used) < self.room:
                roomy.add(number)
            records.update(used)
        free, end = self.chain(self.free)
        want(end == 0, "the free list ends at", end)
        for number in free:
            take(number, "free")
        listed, end = self.chain(self.first)
        want(end == 0, "the entry list ends at", end)
        want(set(listed) == roomy, "the entry list has other blocks than those with room")
        for number, before in zip(listed, [0] + listed):
            want(self.words(number)[1] == before, "block", number, "names another before it")
        want(len(roles) == self.count, "some block has no role")
        return Value(self.kind, self.form, self.grace, records)

    def stated(self, number):
        """The number of entries that a data block says."""
        return DATA_HEAD.unpack_from(self.block(number))[2]

    def levels(self):
        """Of the five levels of the tree, how many paths lead to each block; the last one has the data blocks."""
        level = {1: 1}
        yield level
        for _ in range(4):
            below = {}
            for number, paths in level.items():
                for word in self.words(number):
                    if self.leads(word):
                        below[word] = below.get(word, 0) + paths
            level = below
            yield level

    def leaf_of(self, id):
        """The data block to which the path of an identifier leads, or none."""
        at = 1
        for shift in (24, 16, 8, 0):
            at = self.words(at)[id >> shift & 255]
            if not self.leads(at):
                return None
        return at

    def roles_of(self, number):
        """How many roles a block has, or how often one."""
        *tree, data = self.levels()
        free, _ = self.chain(self.free)
        return (number == 0) + sum(level.get(number, 0) for level in tree) + (number in data) + (number in free)

    def holds(self, kind, number, id):
        """Whether a damage of this kind holds of the file, with the block and the identifier that it names."""
        if kind == "Short":
            return self.count > 2 and len(self.data) < self.count * BLOCK and number == len(self.data) // BLOCK
        if kind == "TwoRoles":
            return self.roles_of(number) > 1
        if kind == "NoRole":
            return number < self.count and self.roles_of(number) == 0
        chains = [self.chain(self.free), self.chain(self.first)]
        if kind == "ChainOut":
            return any(end == number and end >= self.count for _, end in chains)
        if kind == "ChainLoop":
            return any(end == number and end in met for met, end in chains)
        *tree, data = self.levels()
        if kind == "RefOut":
            return any(number in level for level in tree) and max(self.words(number)) >= self.count
        if kind == "EmptyTree":
            return any(number in level for level in tree[1:]) and not any(self.words(number))
        listed, _ = chains[1]
        if kind == "BadPrev":
            return (number, self.words(number)[1]) not in zip(listed, [0] + listed) and number in listed
        used = self.used_ids(number)
        has_room = number in data and len(used) < self.room
        if kind == "ForeignInChain":
            return number in listed and not has_room
        if kind == "MissingInChain":
            return number not in listed and has_room
        if number not in data:
            return False
        if kind == "BadCount":
            return self.stated(number) != len(used)
        if kind == "MissingEntry":
            return self.leaf_of(id) == number and id not in used
        if kind == "StrayEntry":
            return self.leaf_of(id) != number and id in used
        return kind == "DoubleEntry" and used.count(id) > 1
