"""A ring that feeds itself, for two cases: a chain reads the sector that the used index numbers into the available index.

Sector s begins with s + 2, so that one more chain is available after each request, up to so many of them.
"""
SECTORS, AT_ONCE = 4096, 400
RING, AVAILABLE, USED, HEADER, DATA = 4096 * 4, 4096 * 4 + 256, 4096 * 5, 4096 * 6, 4096 * 8
NEXT, WRITE = 1, 2


def le(number, size):
    return number.to_bytes(size, "little").hex()


def descriptor(address, length, flags, after):
    return le(address, 8) + le(length, 4) + le(flags, 2) + le(after, 2)


def fill_sectors(served):
    """OUT requests that write the sectors."""
    for request, first in enumerate(range(0, SECTORS, AT_ONCE)):
        count = min(AT_ONCE, SECTORS - first)
        for sector in range(first, first + count):
            ahead = sector + 2 if sector + 1 < served else sector + 1
            yield f"g1 mem {DATA + 512 * (sector - first)} {le(ahead, 2)}"
        yield f"g1 mem {HEADER} {le(1, 4)}{le(0, 4)}{le(first, 8)}"
        yield f"g1 mem {RING} {descriptor(HEADER, 16, NEXT, 1)}{descriptor(DATA, 512 * count, NEXT, 2)}{descriptor(HEADER + 16, 1, WRITE, 0)}"
        yield f"g1 mem {AVAILABLE + 2} {le(request + 1, 2)}"
        yield from ["g1 out 16 0000", "g1 poll 0"]


def feed_itself():
    """The ring begins anew. The request's sector is the used index, and the first 2 bytes read go to the available index."""
    chain = descriptor(HEADER, 8, NEXT, 1) + descriptor(USED + 2, 2, NEXT, 2) + descriptor(HEADER, 6, NEXT, 3)
    chain += descriptor(AVAILABLE + 2, 2, NEXT | WRITE, 4) + descriptor(DATA, 510, NEXT | WRITE, 5) + descriptor(HEADER + 16, 1, WRITE, 0)
    yield f"g1 out 8 {le(4, 4)}"
    yield f"g1 mem {USED + 2} 0000"
    yield f"g1 mem {HEADER} {le(0, 16)}"
    yield f"g1 mem {RING} {chain}"
    yield f"g1 mem {AVAILABLE} {le(0, 2)}{le(1, 2)}{le(0, 32)}"
    yield "g1 out 16 0000"


def write_script(served):
    print("board 1 4 0")
    print(f"guest 1 block 64 {SECTORS}")
    print(f"g1 out 8 {le(4, 4)}")
    print("\n".join([*fill_sectors(served), *feed_itself()]))
