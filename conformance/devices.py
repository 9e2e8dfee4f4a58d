"""Compares the two devices: the one that `alone` asks, which looks back over the events of its guest, and the members
of `step`, which keep what they hold. A guest whose script has no other actor, but for frames that come first, is shown
the same by both. The scripts are those of the cases of `alone`, and some that are drawn from a seed.
"""
import subprocess

DRAWN = 60
LINES = 80
SECONDS = 120
INDIRECT, TABLE = 4, 24576
INDIRECT_DESC, EVENT_IDX = 1 << 28, 1 << 29


def le(value, size):
    return value.to_bytes(size, "little").hex()


class Drawing:
    """Numbers below a bound, drawn from a seed."""

    def __init__(self, seed):
        self.state = seed

    def below(self, bound):
        self.state = (self.state * 6364136223846793005 + 1442695040888963407) % 2 ** 64
        return (self.state >> 33) % bound

    def among(self, items):
        return items[self.below(len(items))]


def access(draw, top):
    width = draw.among([1, 2, 4])
    offset = draw.among([0, 4, 8, 12, 14, 16, 18, 19, 20, 22, 24, draw.below(top)])
    if draw.below(2):
        return f"g1 in {offset} {width}"
    value = draw.among([0, 1, 2, 3, 0xFFFF, draw.below(2 ** 31)]) % 256 ** width
    return f"g1 out {offset} {le(value, width)}"


def descriptor(at, length, flags, following):
    return le(at, 8) + le(length, 4) + le(flags, 2) + le(following, 2)


def any_descriptor(draw):
    length = draw.among([0, 1, 10, 16, 32, 48, 512, 600, 5000])
    address = draw.among([12288, 16384, 20480, TABLE, draw.below(32000)])
    return descriptor(address, length, draw.below(8), draw.below(16))


def usual_chain(draw):
    """What a driver makes: bytes to read, and bytes to write behind them."""
    readable = descriptor(12288, draw.among([16, 40, 528]), 1, 1)
    return readable + descriptor(16384, draw.among([1, 513, 1600]), 2, 0) + descriptor(16384, 1600, 2, 0)


def ring(draw, queue, at):
    """A ring for a queue, with a chain or none at each of its entries, and a notification. The driver may have accepted
    tables of descriptors and event indices, and some chains have a table."""
    chain = usual_chain(draw) if draw.below(3) else "".join(any_descriptor(draw) for _ in range(4))
    named = descriptor(TABLE, draw.among([32, 32, 48, 64, 24]), INDIRECT, 0) + usual_chain(draw)
    request = le(draw.among([0, 1, 4, 8, 9]), 4) + le(0, 4) + le(draw.below(10), 8) + "5a" * 24
    entries = "".join(le(draw.among([0, 0, 0, 2, draw.below(5)]), 2) for _ in range(16))
    used_event = le(draw.among([0, 0, 1, 2, draw.below(18)]), 2)
    return [
        f"g1 out 4 {le(draw.among([0, INDIRECT_DESC, EVENT_IDX, INDIRECT_DESC | EVENT_IDX]), 4)}",
        f"g1 out 14 {le(queue, 2)}", f"g1 out 8 {le(at // 4096, 4)}",
        f"g1 mem {at} {draw.among([chain, named])}", f"g1 mem {TABLE} {chain}",
        f"g1 mem {draw.among([12288, 12288, 16384])} {request}",
        f"g1 mem {at + 256} {le(draw.below(2), 2)}{le(draw.below(18), 2)}{entries}{used_event}",
        f"g1 out 16 {le(queue, 2)}",
    ]


def line(draw, is_block, top):
    queue = draw.below(2)
    choice = draw.below(14)
    if choice < 4:
        return [access(draw, top)]
    if choice < 9:
        return [f"g1 poll {queue}"]
    if choice < 12:
        return ring(draw, 0 if is_block else queue, 4096 * (1 + queue))
    peeks = [f"g1 peek {8192 + 4096 * queue} 134", f"g1 peek {draw.below(32000)} 16"]
    return [draw.among(["g1 irqs", f"g1 msix {draw.among(['on', 'off'])}", *peeks])]


def drawn(seed):
    """A script, and how many frames come first."""
    draw = Drawing(seed)
    is_block = draw.below(2) == 0
    guest = f"guest 1 block 8 8{draw.among(['', ' ro'])}" if is_block else "guest 1 net 8 020000000001"
    count = 0 if is_block else draw.among([0, 2, 66])
    frames = [f"host frame 1 {'%02x' % draw.below(256) * draw.among([14, 60, 1514])}" for _ in range(count)]
    lines = []
    while len(lines) < LINES:
        lines += line(draw, is_block, 64 if is_block else 32)
    schedule = [f"go host {len(frames)}"] if frames else []
    return "\n".join(["board 1 4 0", guest, *frames, *lines, *schedule]) + "\n"


def has_one_actor(text):
    lines = [it.split(b" ") for it in text.split(b"\n") if it and it[:1] != b"#"]
    return all(words[0] in (b"board", b"guest", b"g1") and words[1:2] != [b"serve"] for words in lines)


def transcript(program, command, text):
    done = subprocess.run([program, command], input=text, capture_output=True, timeout=SECONDS)
    first = [b"owner", b"end"]
    lines = done.stdout.split(b"\n")
    ends = [at for at, it in enumerate(lines) if it in first]
    return (done.returncode, lines[:ends[0]] if ends else lines)


def fault_of(program, text):
    """Where the two differ, or None."""
    one, other = (transcript(program, command, text) for command in ("alone", "step"))
    if one == other:
        return None
    differ = [pair for pair in zip(one[1], other[1]) if pair[0] != pair[1]]
    return f"alone and step differ: {differ[:1] or (one[0], other[0], len(one[1]), len(other[1]))}"


def faults(program, texts):
    """Each name with its fault, of the scripts of cases and of those that are drawn."""
    scripts = [(f"devices_{name}", text) for name, text in texts if has_one_actor(text)]
    scripts += [(f"devices_drawn_{seed}", drawn(seed).encode("ascii")) for seed in range(DRAWN)]
    return [(name, fault_of(program, text)) for name, text in scripts]
