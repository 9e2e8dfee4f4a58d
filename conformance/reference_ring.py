"""The rings of the devices of reference.py (docs/formats.md, 'Rings')."""

PAGE, RING = 4096, 16
LONGEST_TABLE = 128
NO_INTERRUPT, NEXT, WRITE, INDIRECT = 1, 1, 2, 4


def le(number, size):
    return number.to_bytes(size, "little")


def number(data):
    return int.from_bytes(data, "little")


class Descriptor:
    """16 bytes of a table of descriptors."""

    def __init__(self, data):
        self.address, self.length, self.next = number(data[:8]), number(data[8:12]), number(data[14:16])
        flags = number(data[12:14])
        self.has_next, self.is_written = bool(flags & NEXT), bool(flags & WRITE)
        self.is_indirect = bool(flags & INDIRECT)

    def is_inside(self, memory):
        return self.address + self.length <= len(memory)

    def is_table(self, memory):
        """Whether its buffer is a table of descriptors."""
        return self.length % 16 == 0 and 1 <= self.length // 16 <= LONGEST_TABLE and self.is_inside(memory)


class Ring:
    """A queue's ring in its guest's memory, at the position of the chain that comes next."""

    def __init__(self, memory, page, position):
        self.memory, self.page, self.position = memory, page, position
        self.available, self.used = PAGE * page + 16 * RING, PAGE * (page + 1)
        self.used_event, self.avail_event = self.available + 4 + 2 * RING, self.used + 4 + 8 * RING

    def is_there(self):
        return self.page != 0 and self.avail_event + 2 <= len(self.memory)

    def gap(self):
        """How many chains are available."""
        return (self.word(self.available + 2) - self.position) % 65536

    def head(self):
        return self.word(self.available + 4 + 2 * (self.position % RING))

    def word(self, address):
        return number(self.memory[address:address + 2])

    def wants_interrupt(self, with_events):
        if with_events:
            return self.word(self.used_event) == self.position
        return not self.word(self.available) & NO_INTERRUPT

    # -- a chain

    def chain(self, with_tables):
        """The buffers of the next chain, or None where it is a bad one."""
        found = self.linked(PAGE * self.page, RING, self.head())
        if with_tables and found and found[-1].is_indirect:
            found = self.with_table(found)
        return found if found and self.are_buffers(found) else None

    def linked(self, table, count, index):
        """The descriptors that follow one another from an index of a table on; None where one stands behind its end, or
        they are more than it has."""
        found = []
        while index < count and len(found) < count:
            found.append(Descriptor(self.memory[table + 16 * index:table + 16 * index + 16]))
            if not found[-1].has_next:
                return found
            index = found[-1].next
        return None

    def with_table(self, descriptors):
        """Those before the last one, and those of the table that it names; or None."""
        *before, last = descriptors
        if not last.is_table(self.memory):
            return None
        inner = self.linked(last.address, last.length // 16, 0)
        return None if inner is None else before + inner

    def are_buffers(self, descriptors):
        """Whether each is a buffer in the memory, and none to read stands behind one to write."""
        kinds = [it.is_written for it in descriptors]
        return kinds == sorted(kinds) and all(it.is_inside(self.memory) and not it.is_indirect for it in descriptors)

    # -- its use

    def readable(self, chain):
        return b"".join(bytes(self.memory[it.address:it.address + it.length]) for it in chain if not it.is_written)

    def use(self, chain, reply, with_events):
        """The reply goes into the chain, then head and length into the used ring, then its index; and where events are
        used, the next position is named last, as the one to notify of."""
        head, behind = self.head(), le((self.position + 1) % 65536, 2)
        self.scatter(chain, reply)
        self.store(self.used + 4 + 8 * (self.position % RING), le(head, 4) + le(len(reply), 4))
        self.store(self.used + 2, behind)
        if with_events:
            self.store(self.avail_event, behind)

    def scatter(self, chain, reply):
        for it in chain:
            if it.is_written:
                self.store(it.address, reply[:it.length])
                reply = reply[it.length:]

    def store(self, address, data):
        self.memory[address:address + len(data)] = data
