"""A queue that serves more than 65,536 chains, for two cases: its indices, and the events of both sides, go round.

Each chain is a flush that stands in a table. The interrupt is asked for at the last position before the indices go
round, then at the first one behind it, and then at a position that is far away. Beside each the used ring's index,
avail_event and ISR status are read.
"""
RING, AVAILABLE, USED, HEADER, TABLE = 4096, 4352, 8192, 12288, 12544
USED_EVENT, AVAIL_EVENT, SIZE, ROUND = AVAILABLE + 36, USED + 132, 16, 65536
NEXT, WRITE, INDIRECT = 1, 2, 4


def le(number, size):
    return number.to_bytes(size, "little").hex()


def descriptor(address, length, flags, after):
    return le(address, 8) + le(length, 4) + le(flags, 2) + le(after, 2)


def set_up():
    yield "g1 out 4 00000030"
    yield "g1 out 8 01000000"
    yield f"g1 mem {HEADER} {le(4, 4)}{le(0, 12)}"
    yield f"g1 mem {TABLE} {descriptor(HEADER, 16, NEXT, 1)}{descriptor(HEADER + 16, 1, WRITE, 0)}"
    yield f"g1 mem {RING} {descriptor(TABLE, 32, INDIRECT, 0)}"
    yield f"g1 mem {USED_EVENT} {le(ROUND - 1, 2)}"


def look():
    yield f"g1 peek {USED + 2} 2"
    yield f"g1 peek {AVAIL_EVENT} 2"
    yield "g1 in 19 1"


def offer_and_poll(begin, count):
    """Chains from a position on, made available at once, and as many polls. No poll finds the queue empty, so it stays
    pending after the first doorbell."""
    yield f"g1 mem {AVAILABLE + 2} {le((begin + count) % ROUND, 2)}"
    yield from ["g1 out 16 0000"] * (begin == 0)
    yield from ["g1 poll 0"] * count


def write_script():
    lines = ["board 1 4 0", "guest 1 block 4 8", *set_up()]
    for begin in range(0, ROUND - SIZE, SIZE):
        lines += offer_and_poll(begin, SIZE)
    lines += [*offer_and_poll(ROUND - SIZE, SIZE - 1), *look()]
    lines += [*offer_and_poll(ROUND - 1, 1), *look()]
    lines += [f"g1 mem {USED_EVENT} {le(0, 2)}", *offer_and_poll(ROUND, 1), *look()]
    lines += [*offer_and_poll(ROUND + 1, 3), *look()]
    lines += [f"g1 mem {USED_EVENT} {le(ROUND - 1, 2)}", *offer_and_poll(ROUND + 4, 2), *look()]
    print("\n".join(lines))
