"""Random scripts of a group: drivers that set their rings up and use them, with tables of descriptors and event indices
or without, some of them wrong in one place, and others who touch registers and memory anyhow; workers, the host and a
schedule. Each script is without a fault of form."""

PAGE, RING, NEXT, WRITE, INDIRECT = 4096, 16, 1, 2, 4
HEADER, DATA, ROOM, TABLE = 0, 1024, 2048, 3072
USED_EVENT, AVAIL_EVENT = 256 + 4 + 2 * RING, PAGE + 4 + 8 * RING
INDIRECT_DESC, EVENT_IDX = 1 << 28, 1 << 29
OFFSETS = (0, 4, 8, 9, 12, 14, 16, 17, 18, 19, 20, 22, 24, 26, 30, 31, 32, 40, 44, 52, 56, 63)
STRANGE = (0, 1, 2, 15, 16, 17, 255, 256, 4095, 4096, 32767, 32768, 65535)


def le(number, size):
    return (number % 256 ** size).to_bytes(size, "little")


class Guest:
    """A driver, as far as it knows what it did: its pages, its queues, how many chains it made available on each, and
    the features that it accepted."""

    def __init__(self, rng, number, is_small):
        self.rng, self.name, self.number = rng, f"g{number}", number
        self.is_block = rng.random() < 0.6
        self.pages = rng.choice((1, 2, 3, 3, 4, 4, 4, 5, 8))
        self.queues = 1 if self.is_block else 2
        self.sectors, self.is_small = rng.choice((0, 1, 2, 8, 8, 8, 40)), is_small
        self.page, self.offered, self.features, self.lines = {}, [0] * self.queues, 0, []

    def line(self):
        if self.is_block:
            return f"guest {self.number} block {self.pages} {self.sectors}{' ro' if self.rng.random() < 0.15 else ''}"
        return f"guest {self.number} net {self.pages} 0200000000{self.number:02x}"

    def say(self, words):
        self.lines.append(f"{self.name} {words}")

    def access(self, words):
        """An access, of which some name a queue, or wait at a full one just once."""
        board = self.rng.random()
        queue = f" @{self.rng.randrange(self.board_queues)}" if board < 0.3 else ""
        self.say(words + queue + (" once" if board > 0.9 else ""))

    def out(self, offset, data):
        self.access(f"out {offset} {data.hex()}")

    def mem(self, address, data):
        """A write of memory, kept inside it."""
        data = data[:512]
        if 0 <= address and address + len(data) <= PAGE * self.pages:
            self.say(f"mem {address} {data.hex()}")

    def peek(self, address, size):
        if 0 <= address and address + size <= PAGE * self.pages:
            self.say(f"peek {address} {size}")

    # -- what a driver does

    def reset(self):
        self.out(18, b"\0")
        self.offered, self.features = [0] * self.queues, 0

    def accept(self):
        """Tables, event indices, both or none are accepted, or all bits: by all four bytes, or by the last alone."""
        both = INDIRECT_DESC | EVENT_IDX
        self.features = self.rng.choice((0, INDIRECT_DESC, EVENT_IDX, both, both, 2 ** 32 - 1))
        if self.rng.random() < 0.8:
            self.out(4, le(self.features, 4))
        else:
            self.out(7, le(self.features >> 24, 1))

    def set_up(self, queue):
        rng = self.rng
        page = rng.choice((0, 1, 1, 1, 1, 1, 2, 2, self.pages, self.pages - 1, 0xFFFFFFFF, rng.randrange(2 ** 32)))
        self.out(14, le(queue, 2))
        if rng.random() < 0.3:
            self.access("in 12 2")
        self.out(8, le(page, 4))
        if rng.random() < 0.3:
            self.out(rng.choice((20, 22)), le(rng.choice((0, 1, 1, 2, 3, 65535)), 2))
        self.page[queue], self.offered[queue] = page, 0

    def buffers(self, queue, at):
        """The descriptors of a chain that is well made: address, length and whether the device writes it."""
        rng = self.rng
        if self.is_block:
            kind = rng.choice((0, 0, 1, 1, 4, 8 if self.number == 1 else 4, 2, 5, 0xFFFFFFFF))
            sector = rng.choice((0, 0, 1, 7, 8, self.sectors, self.sectors - 1, 2 ** 64 - 1))
            self.mem(at + HEADER, le(kind, 4) + le(0, 4) + le(sector, 8))
            size = rng.choice((0, 20, 21, 511, 512, 512, 512, 1024))
            if kind == 1:
                self.mem(at + DATA, rng.randbytes(rng.choice((1, 16, 100))))
                return [(at + HEADER, 16, 0), (at + DATA, size, 0), (at + ROOM, 1, 1)]
            room, more = rng.choice((1, 1 + size)), rng.choice((0, 0, 1))
            return [(at + HEADER, 16, 0), (at + ROOM, room, 1), (at + DATA, more, 1)]
        if queue == 1:
            self.mem(at + DATA, rng.randbytes(rng.choice((14, 20, 60))))
            return [(at + HEADER, 10, 0), (at + DATA, rng.choice((13, 14, 20, 60, 1514, 1515)), 0)][rng.random() < 0.1:]
        return [(at + ROOM, rng.choice((9, 10, 24, 40, 64, 1524)), 1)] * rng.choice((1, 1, 2))

    def linked(self, chain):
        """The descriptors of a chain, one behind the other in a table."""
        found = [[*place, NEXT | WRITE * is_written, behind] for behind, (*place, is_written) in enumerate(chain, 1)]
        found[-1][2:] = [found[-1][2] ^ NEXT, 0]
        return found

    def spoil(self, descriptors):
        """Some chains are made wrong in one place."""
        rng, ring = self.rng, self.ring_at(0)
        if rng.random() > 0.25:
            return
        descriptor, place = rng.choice(descriptors), rng.randrange(4)
        flags, end = descriptor[2], PAGE * self.pages
        descriptor[place] = rng.choice({
            0: (0, end, end - 1, 2 ** 64 - 16, ring, ring + PAGE + 2, ring + USED_EVENT, ring + AVAIL_EVENT),
            1: (0, 1, 15, 16, 40, 2048, 2064, PAGE, 2 ** 32 - 1, end),
            2: (flags ^ NEXT, flags ^ WRITE, flags ^ INDIRECT, flags | 0x8000),
            3: (0, 1, 2, 15, 16, 127, 65535),
        }[place])

    def table(self, descriptors):
        """The bytes of a table of descriptors."""
        self.spoil(descriptors)
        return b"".join(le(a, 8) + le(n, 4) + le(f, 2) + le(x, 2) for a, n, f, x in descriptors)

    def in_a_table(self, chain, at):
        """The chain's descriptors in the ring, of which the last names a table with the others of the chain."""
        rng, first = self.rng, self.rng.randrange(len(chain))
        inner = self.linked(chain[first:])
        self.mem(at, self.table(inner))
        size = rng.choice((len(inner), len(inner), len(inner), len(inner) + 1, 128))
        found = self.linked([*chain[:first], (at, 16 * size, 0)])
        found[-1][2:] = [INDIRECT, rng.choice((0, 0, 65535))]
        return found

    def chain(self, queue, at):
        """The bytes of the ring's table from its front on, for a chain that may have a table of its own."""
        chain = self.buffers(queue, at)
        has_table = self.rng.random() < (0.7 if self.features & INDIRECT_DESC else 0.1)
        return self.table(self.in_a_table(chain, at + TABLE) if has_table else self.linked(chain))

    def ask_for_interrupt(self, queue, count):
        """used_event: a position among those that are made available now, one before or behind them, or any."""
        if self.rng.random() < (0.8 if self.features & EVENT_IDX else 0.1):
            near = self.offered[queue] + self.rng.randrange(-1, count + 1)
            position = near if self.rng.random() < 0.9 else self.rng.choice(STRANGE)
            self.mem(self.ring_at(queue) + USED_EVENT, le(position, 2))

    def ring_at(self, queue):
        return PAGE * self.page.get(queue, 1)

    def offer(self, queue):
        """A chain, or several times the same one, made available; the doorbell; and polls."""
        rng, ring = self.rng, self.ring_at(queue)
        at = PAGE * rng.choice((0, self.pages - 1)) + (256 if rng.random() < 0.5 else 0)
        self.mem(ring, self.chain(queue, at))
        count = rng.choice((1, 1, 1, 2, 3))
        self.ask_for_interrupt(queue, count)
        for extra in range(count):
            head = 0 if rng.random() < 0.95 else rng.choice(STRANGE)
            self.mem(ring + 260 + 2 * ((self.offered[queue] + extra) % RING), le(head, 2))
        self.offered[queue] += count
        index = self.offered[queue] if rng.random() < 0.93 else rng.choice(STRANGE)
        self.mem(ring + 256, le(rng.choice((0, 0, 0, 1, 0xFFFE)), 2) + le(index, 2))
        self.doorbell(queue)
        for _ in range(count + rng.choice((-1, 0, 1))):
            self.say(f"poll {queue}")
        if rng.random() < 0.7:
            self.peek(ring + PAGE, rng.choice((4, 12, 134, 134)))
            self.peek(at + ROOM, rng.choice((1, 21, 64, 512)))
        if rng.random() < 0.4:
            self.say("irqs") if rng.random() < 0.5 else self.access("in 19 1")

    def doorbell(self, queue):
        if self.rng.random() < 0.93:
            self.out(16, le(queue if self.rng.random() < 0.95 else self.rng.choice(STRANGE), 2))
        elif self.rng.random() < 0.5:
            self.out(16, le(queue, 1))

    def anyhow(self):
        """A line of any kind."""
        rng, kind = self.rng, self.rng.randrange(12)
        offset = rng.choice(OFFSETS) if rng.random() < 0.9 else rng.randrange(256)
        if kind < 4:
            self.access(f"in {offset} {rng.choice((1, 2, 4))}")
        elif kind < 7:
            some = rng.randbytes(rng.choice((1, 2, 4)))
            self.out(offset, rng.choice((b"\0", b"\1", b"\0\0", b"\1\0", b"\1\0\0\0", some)))
        elif kind == 7:
            self.say(f"msix {rng.choice(('on', 'on', 'off'))}")
        elif kind == 8:
            configuration = f"cfg {rng.randrange(70)} {rng.choice((1, 2, 4))}"
            self.say(rng.choice(("irqs", "irqs", "io on", "io off", "io on", configuration)))
        elif kind == 9:
            self.say(f"poll {rng.choice((0, 0, 1, 2, 65535))}")
        elif kind == 10:
            self.mem(rng.randrange(PAGE * self.pages), rng.randbytes(rng.choice((1, 2, 16))))
        else:
            self.peek(rng.randrange(PAGE * self.pages - 20), rng.choice((1, 2, 16)))

    def live(self, board_queues):
        rng, self.board_queues = self.rng, board_queues
        for step in range(rng.choice((1, 2, 3) if self.is_small else (2, 4, 8, 12))):
            queue, chance = rng.randrange(self.queues), rng.random()
            if step == 0 or rng.random() < 0.1:
                self.accept()
            if step == 0 or chance < 0.12:
                self.set_up(queue)
            elif chance < 0.16:
                self.reset()
            elif chance < 0.3:
                self.out(18, le(rng.choice((1, 3, 7, 128)), 1))
            if chance < 0.7:
                self.offer(queue)
            else:
                for _ in range(rng.randrange(1, 5)):
                    self.anyhow()
        return self.lines


def worker_lines(rng, worker, guests, queues):
    lines = []
    for _ in range(rng.randrange(8)):
        poll = f"poll {rng.choice(guests).number} {rng.choice((0, 0, 1, 2))}"
        lines.append(f"w{worker} {f'serve {rng.randrange(queues)}' if rng.random() < 0.6 else poll}")
    return lines


def host_lines(rng, guests):
    lines = []
    for _ in range(rng.choice((0, 0, 1, 2, 4, 8))):
        guest, chance = rng.choice(guests), rng.random()
        if chance < 0.6 and not guest.is_block:
            times = 66 if rng.random() < 0.02 else 1
            frame = rng.randbytes(rng.choice((14, 14, 15, 30, 54, 1514)))
            lines += [f"host frame {guest.number} {frame.hex()}"] * times
        elif chance < 0.8:
            lines.append(f"host flr {guest.number}")
        else:
            lines.append(f"host disable {guest.number}")
    if rng.random() < 0.25:
        lines.insert(rng.randrange(len(lines) + 1), "host reset")
    return lines


def merged(rng, parts):
    """The lines of all actors, each actor's in its order."""
    parts, found = [list(reversed(it)) for it in parts if it], []
    while parts:
        part = rng.choice(parts)
        found.append(part.pop())
        parts = [it for it in parts if it]
    return found


def schedule(rng, actors):
    """Turns of any actors; in half of the scripts the host comes to its end between them, in some of these early."""
    counts = (0, 1, 1, 2, 3, 4, 5, 6, 7, 12, 30)
    turns = [f"{rng.choice(actors)} {rng.choice(counts)}" for _ in range(rng.choice((0, 2, 6, 20)))]
    if rng.random() < 0.5:
        turns.insert(rng.randrange(min(rng.choice((4, 20)), len(turns)) + 1), "host 60")
    return ["go " + " ".join(turns[at:at + 4]) for at in range(0, len(turns), 4)]


def random_script(rng):
    count = rng.choice((1, 1, 2, 2, 2, 3, 3, 4, 6, 16))
    queues, size, workers = rng.choice((1, 1, 2, 3, 8)), rng.choice((4, 4, 4, 8, 256)), rng.choice((0, 0, 1, 2, 8))
    guests = [Guest(rng, number, count > 4) for number in range(1, count + 1)]
    parts = [it.live(queues) for it in guests]
    parts += [worker_lines(rng, it, guests, queues) for it in range(workers)] + [host_lines(rng, guests)]
    actors = [it.name for it in guests] + [f"w{it}" for it in range(workers)] + ["host"]
    lines = [f"board {queues} {size} {workers}", *(it.line() for it in guests)]
    lines += merged(rng, parts + [schedule(rng, actors)])
    return "\n".join(lines) + "\n"


def crowded_script(rng):
    """Sixteen guests, eight workers and the host on one board. The workers poll a few members alone, and the host does
    something to these alone, but where it resets the group, and mostly no guest gives up at a full queue: so most
    guests' answers don't depend on the order of calls."""
    queues, size, is_calm = rng.choice((1, 2, 3, 8)), rng.choice((4, 4, 8, 256)), rng.random() < 0.8
    guests = [Guest(rng, number, True) for number in range(1, 17)]
    shared = rng.sample(guests, rng.choice((1, 2, 4)))
    parts = [it.live(queues) for it in guests]
    parts += [worker_lines(rng, it, shared, queues) for it in range(8)]
    parts.append([it for it in host_lines(rng, shared) if it != "host reset" or rng.random() < 0.3])
    lines = [f"board {queues} {size} 8", *(it.line() for it in guests), *merged(rng, parts)]
    if is_calm:
        lines = [it.removesuffix(" once") for it in lines]
    return "\n".join(lines) + "\n"
