"""Makes cases of chains for walk.c and upstream/upstream.rs, and compares what both say of them.

A case is the size of a queue, a head, the queue's table and an indirect one, of 16 descriptors each. The first ones are
those of virtio-queue's own tests; COUNT others are by chance, the same for the same SEED. Where both find a chain its
pieces must be the same; where one is refused, upstream must stop at the same descriptor, but for what it lets through
and says so: these are counted by themselves.
"""
import collections
import random
import struct

# VRING_DESC_F_ of a descriptor.
NEXT, WRITE, INDIRECT = 1, 2, 4
# How many entries each of the two tables has in a case, and where in the guest's memory the indirect one lies.
ENTRIES, AT = 16, 0x4000
SIZE = 4 + 2 * 16 * ENTRIES
# The guest's memory: address and length of each region, as walk.c and upstream.rs have it. The second and the third touch.
REGIONS = [(0, 0x8000), (0x10000, 0x2000), (0x12000, 0x1000), (0x100000000, 0xc0000000)]
# The numbers of chain.h.
(LAST, MORE, TABLE, OUTSIDE_TABLE, LONGER_THAN_TABLE, OUTSIDE, PAST_END, READABLE_AFTER_WRITABLE, TOO_MANY_BYTES,
 TABLE_IN_TABLE, TABLE_GOES_ON, TABLE_SIZE, TOO_MANY_ENTRIES) = range(13)


def case(size, head, table, indirect=()):
    """The bytes of a case, of descriptors (addr, len, flags, next)."""
    made = struct.pack("<HH", size, head)
    for entries in (table, indirect):
        made += b"".join(struct.pack("<QIHH", *it) for it in entries).ljust(16 * ENTRIES, b"\0")
    return made


def of_upstream():
    """The cases of virtio-queue 0.18's own tests of chains, src/chain.rs, in this memory."""
    page = 0x1000
    four = [(page * i, page, NEXT, i + 1) for i in range(3)] + [(3 * page, page, 0, 0)]
    yield case(16, 16, [])
    yield case(16, 0, [(0x1000, page, NEXT, 16)])
    yield case(16, 0, [(0x1000, page, NEXT, 1), (0x2000, page, 0, 0)])
    yield case(16, 0, [(0x100 * i, 0x100, NEXT, i + 1) for i in range(15)] + [(0x1000, page, 0, 0)])
    for more in (0, NEXT):
        yield case(16, 0, [(0x6000, page, NEXT, 1), (AT, 0x100, INDIRECT | more, 2), (0x10000, page, 0, 0)], four)
    yield case(16, 0, [(AT + 16, 0x40, INDIRECT, 0)], [(0, 0, 0, 0)] + four)
    yield case(16, 0, [(AT, 0x101, INDIRECT, 0)])
    yield case(16, 0, [(AT, 65536 * 16, INDIRECT, 0)])
    yield case(16, 0, [(AT, 0x100, INDIRECT, 0)], [(0x3000, page, 0, 0)])
    yield case(16, 0, [(AT, 0x100, INDIRECT, 0)], [(0x3000, page, INDIRECT, 0)])


def number(rng, size):
    """The number of a descriptor, mostly of the table."""
    return rng.choice([rng.randrange(size), rng.randrange(size), size - 1, size, 65535]) if rng.random() < 0.1 \
        else rng.randrange(size)


def piece(rng):
    """An address and a length, mostly in a region, often at its ends."""
    address, size = rng.choice(REGIONS)
    length = rng.choice([0, 1, 16, 40, 0x100, 0x1000])
    start = rng.choice([0, 1, size - length, size - length + 1, size, rng.randrange(size)]) if rng.random() < 0.2 \
        else rng.randrange(size - length + 1)
    if rng.random() < 0.05:
        # (addresses beyond all regions, and in none)
        address, length = rng.choice([(1 << 64) - 0x1000, 0x8000, 0x20000]), rng.choice([0, 1, 0xffffffff])
        start = 0
    if rng.random() < 0.05:
        address, start, length = 0x100000000, rng.choice([0, 16]), rng.choice([0x7fffffff, 0x80000000, 0xbffffff0])
    return address + start, length


def table(rng, size, first, indirect):
    """A table whose entries are mostly a chain from this one on, which mostly ends."""
    entries = [(*piece(rng), rng.choice([0, NEXT, WRITE, NEXT | WRITE]), number(rng, size)) for _ in range(ENTRIES)]
    order = rng.sample(range(size), rng.randrange(1, size + 1))
    if first in order:
        order.remove(first)
    order = [first, *order][:size]
    turn = rng.randrange(len(order) + 1)
    # From place `turn` on entries are for the device to write.
    for place, at in enumerate(order):
        is_last = place + 1 == len(order)
        flags = (WRITE if place >= turn else 0) | (0 if is_last else NEXT)
        follows = first if is_last else order[place + 1]
        if rng.random() < 0.03:
            flags, follows = flags ^ rng.choice([NEXT, WRITE, INDIRECT]), number(rng, size)
        entries[at] = (*piece(rng), flags, follows)
        if is_last and indirect:
            offset, count = rng.choice([(0, ENTRIES), (0, ENTRIES), (16, 4), (8, 4), (0, 1)])
            length = rng.choice([16 * count] * 8 + [0, 8, 24, 65536 * 16])
            where = AT + offset if rng.random() < 0.95 else rng.choice([0x20000, 0x7ff0, 0x7ff8, 0x11ff0])
            entries[at] = (where, length, flags & WRITE | INDIRECT | (NEXT if rng.random() < 0.03 else 0), follows)
    return entries


def make(seed, count):
    """All cases: those of upstream, and `count` by the seed."""
    rng = random.Random(seed)
    yield from of_upstream()
    for _ in range(count):
        size = rng.choice([1, 2, 4, 8, 16])
        head = rng.randrange(size) if rng.random() < 0.98 else size
        # (seldom with a table in a table)
        indirect = table(rng, ENTRIES, 0, rng.random() < 0.03)
        yield case(size, head, table(rng, size, min(head, size - 1), rng.random() < 0.4), indirect)


def refused_entry(one, ours):
    """The descriptor that is refused, in the tables of a case: the one after the pieces."""
    size, at = struct.unpack_from("<HH", one)
    base, entries, left = 4, size, len(ours)
    while at < entries:
        d = struct.unpack_from("<QIHH", one, base + 16 * at)
        # (the first table begins after the two numbers of 2 bytes)
        if d[2] & INDIRECT and base == 4:
            offset = d[0] - AT
            if ours_refuses_here(left) and (d[1] % 16 or not d[1] or d[2] & NEXT or not 0 <= offset <= 16 * (ENTRIES - 1)):
                return d
            if offset % 8 or not 0 <= offset <= 16 * (ENTRIES - 1):
                return d
            base, entries, at = 4 + 16 * ENTRIES + offset, d[1] // 16, 0
            if base + 16 * entries > SIZE:
                entries = (SIZE - base) // 16
            continue
        if not left:
            return d
        left -= 1
        at = d[3]
    return None


def ours_refuses_here(left):
    return left == 0


def lies(it, found):
    """Whether a descriptor of upstream's lies in one region. For 0 bytes at a region's end upstream says no."""
    address, length = (int(number, 16) for number in it.split(":")[:2])
    return found == "1" or (length == 0 and address in (sum(region) for region in REGIONS))


def judge(one, ours, theirs):
    """What came of a case, and whether it is as it should be."""
    *pieces, code = ours.split()
    *yielded, more = theirs.split()
    code, goes_on = int(code), more == "1"
    there = [it.rsplit(":", 1) for it in yielded]
    same = [it for it, _ in there[:len(pieces)]] == pieces and all(lies(*it) for it in there[:len(pieces)])
    after = there[len(pieces):]
    total = 0
    for it in pieces:
        total += int(it.split(":")[1], 16)
        # (upstream counts the bytes of a chain in 32 bits; here 2^32 are as many as fit)
        if total == 1 << 32:
            return "exactly 2^32 bytes, which upstream refuses", True
    if code == LAST:
        return "a chain", same and not after and not goes_on
    if not same:
        return f"refused by {code}, with other pieces", False
    refused = refused_entry(one, pieces)
    is_table = refused is not None and refused[2] & INDIRECT
    if refused is not None and not is_table and total + refused[1] >= 1 << 32:
        return f"refused by {code}, and of 2^32 bytes or more", not after and goes_on
    if code in (OUTSIDE, PAST_END) and is_table:
        return "a table that is not in a region, which upstream reads as far as it can", True
    if code in (OUTSIDE, PAST_END):
        return f"refused by {code}", bool(after) and not lies(*after[0])
    if code in (OUTSIDE_TABLE, LONGER_THAN_TABLE):
        return f"refused by {code}", len(after) <= 1 and goes_on
    if code == READABLE_AFTER_WRITABLE:
        return "one is read after one that is written, which upstream lets through", \
            bool(after) and after[0][0].endswith(":0") and pieces[-1].endswith(":1")
    if code == TABLE_GOES_ON:
        return "a table with NEXT, which upstream ignores", True
    return f"refused by {code}", not after and goes_on


def compare(cases, ours, theirs):
    """Compares lines for each case, and counts what came by kind. Shows the first five that are wrong, and returns how
    many there are."""
    counted, wrong = collections.Counter(), 0
    assert len(ours) == len(theirs) == len(cases)
    for place, case in enumerate(zip(cases, ours, theirs)):
        what, right = judge(*case)
        counted[what] += 1
        wrong += not right
        if not right and wrong <= 5:
            print(f"case {place}: {what}\n  ours      {case[1]}\n  upstream  {case[2]}")
    for what, count in sorted(counted.items(), key=lambda it: -it[1]):
        print(f"{count:8}  {what}")
    return wrong
