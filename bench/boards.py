"""Scripts of several guests for the benchmarks: block requests through rings, and register accesses alone."""

TABLE, AVAILABLE, USED = 4096, 4352, 8192
OUT_HEADER, IN_HEADER, DATA, STATUS, REPLY = 12288, 12304, 12800, 13312, 16384
NEXT, WRITE = 1, 2


def le(number, size):
    return number.to_bytes(size, "little").hex()


def descriptor(address, length, flags, after):
    return le(address, 8) + le(length, 4) + le(flags, 2) + le(after, 2)


def noise(seed, count):
    """Bytes that depend on the seed alone."""
    state, data = seed & (2**64 - 1), bytearray()
    while len(data) < count:
        state = (state * 6364136223846793005 + 1442695040888963407) % 2**64
        data += (state >> 32).to_bytes(4, "little")
    return bytes(data[:count]).hex()


def boot(guest):
    """Descriptor 0 heads a request with data of one sector, descriptor 3 one that reads a sector."""
    table = descriptor(OUT_HEADER, 16, NEXT, 1) + descriptor(DATA, 512, NEXT, 2) + descriptor(STATUS, 1, WRITE, 0)
    table += descriptor(IN_HEADER, 16, NEXT, 4) + descriptor(REPLY, 513, WRITE, 0)
    yield from ["out 18 00", "out 18 03", "in 0 4"]
    if guest % 2 == 0:
        yield from ["msix on", "out 22 0100"]
    yield from ["out 8 01000000", "out 18 07", f"mem {TABLE} {table}"]


def make_available(position, head):
    yield f"mem {AVAILABLE + 4 + 2 * (position % 16)} {le(head, 2)}"
    yield f"mem {AVAILABLE + 2} {le((position + 1) % 65536, 2)}"
    yield from ["out 16 0000", "poll 0"]


def requests(guest):
    """Rounds of one sector written and four read."""
    position, turn = 0, 0
    while True:
        yield f"mem {OUT_HEADER} {le(1, 4)}{le(0, 4)}{le((turn * 7) % 64, 8)}"
        yield f"mem {DATA} {noise(guest * 1000003 + turn, 512)}"
        yield from make_available(position, 0)
        for back in range(4):
            yield f"mem {IN_HEADER} {le(0, 4)}{le(0, 4)}{le(((turn - back) * 7) % 64, 8)}"
            yield from make_available(position + 1 + back, 3)
            yield "in 19 1" if guest % 2 else "irqs"
            yield f"peek {REPLY} {512 if back == 0 else 16}"
            yield f"peek {USED} 4"
        yield "in 12 2"
        position, turn = position + 5, turn + 1


def accesses(guest):
    turn = guest
    while True:
        yield ("in 18 1", "in 19 1", "in 12 2", f"out 14 {le(turn % 3, 2)}")[turn % 4]
        turn += 1


def whole(guests, size, begin, go_on, turns):
    """A script of whole lines up to so many bytes, over four queues of 32 entries."""
    text = ["board 4 32 0", *(f"guest {guest} block 8 64" for guest in range(1, guests + 1))]
    text += [f"g{guest} {line}" for guest in range(1, guests + 1) for line in begin(guest)]
    text += ["go " + " ".join(f"g{guest} 5" for guest in range(1, guests + 1))] * turns
    streams = [go_on(guest) for guest in range(1, guests + 1)]
    length = sum(len(line) + 1 for line in text)
    while True:
        for guest, stream in enumerate(streams, 1):
            line = f"g{guest} {next(stream)}"
            if length + len(line) + 1 > size:
                return ("\n".join(text) + "\n").encode("ascii")
            text.append(line)
            length += len(line) + 1


def block_requests(size):
    return whole(16, size, boot, requests, 20)


def register_accesses(size):
    return whole(16, size, lambda guest: [], accesses, 0)
