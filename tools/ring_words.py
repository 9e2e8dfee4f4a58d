"""What the bytes that a guest writes and reads are in its rings, and in the tables of descriptors that these name
(docs/formats.md, 'Rings')."""
import itertools

PAGE, SIZE, QUEUES = 4096, 16, 2
LONGEST_MEMORY, LONGEST_TABLE = 64 * PAGE, 128
ADDRESS, SELECT, STATUS = range(8, 12), range(14, 16), 18
NEXT, WRITE, INDIRECT, NO_INTERRUPT = 1, 2, 4, 1


def number(data):
    return int.from_bytes(data, "little")


# ---- the words of a field

def plain(name):
    return lambda data: f"{name} {number(data)}"


def flags_words(data):
    return f"flags {number(data)}{' (NO_INTERRUPT)' if number(data) == NO_INTERRUPT else ''}"


def element(index):
    return lambda data: f"element {index}: head {number(data[:4])}, {number(data[4:])} bytes"


class Descriptor:
    """What the 16 bytes of a descriptor are."""

    def __init__(self, data):
        self.address, self.length, self.next = number(data[:8]), number(data[8:12]), number(data[14:16])
        self.flags = number(data[12:14])

    def words(self):
        names = [name for name, flag in (("WRITE", WRITE), ("INDIRECT", INDIRECT)) if self.flags & flag]
        follower = [f"then {self.next}"] if self.flags & NEXT else []
        return ", ".join([f"{self.length} at {self.address}", *follower, *names])

    def names_a_table(self):
        count, rest = divmod(self.length, 16)
        return bool(self.flags & INDIRECT) and rest == 0 and 1 <= count <= LONGEST_TABLE


def descriptor(index):
    return lambda data: f"descriptor {index}: {Descriptor(data).words()}"


class Part:
    """A part of a ring, or a table: where it begins, and its fields one after the other, each a length and what gives
    its words."""

    def __init__(self, begin, fields, name="", joint=", "):
        ends = list(itertools.accumulate((length for length, _ in fields), initial=begin))
        self.begin, self.end, self.name, self.joint = begin, ends[-1], name, joint
        self.fields = [(at, length, words) for at, (length, words) in zip(ends, fields)]

    def covers(self, at, length):
        return 0 < length and self.begin <= at and at + length <= self.end

    def words(self, at, data):
        """What these bytes are, where they begin and end with whole fields; else nothing."""
        found, told = [], 0
        for begin, length, words in self.fields:
            if at <= begin and begin + length <= at + len(data):
                found.append(words(data[begin - at:begin - at + length]))
                told += length
        return self.name + self.joint.join(found) if told == len(data) else ""


def table(begin, count, name=""):
    return Part(begin, [(16, descriptor(index)) for index in range(count)], name, "; ")


HEADS = [(2, plain(f"entry {index}: head")) for index in range(SIZE)]
ELEMENTS = [(8, element(index)) for index in range(SIZE)]
PARTS = [
    table(0, SIZE),
    Part(16 * SIZE, [(2, flags_words), (2, plain("idx")), *HEADS, (2, plain("used_event"))], "available ring: "),
    Part(PAGE, [(2, plain("flags")), (2, plain("idx")), *ELEMENTS, (2, plain("avail_event"))], "used ring: "),
]


# ---- where rings and tables are

class Addresses:
    """Where the rings of one member stand, as far as its history has gone."""

    def __init__(self):
        self.reset()

    def reset(self):
        self.select, self.pages = bytearray(2), [bytearray(4) for _ in range(QUEUES)]

    def note(self, entry):
        """What a call leaves of it."""
        if entry.reply[0] != "ok":
            return
        if entry.call[0] == "flr":
            self.reset()
        elif entry.call[:2] == ["act", "common-write"]:
            offset, data = int(entry.call[2]), bytes_of(entry.call[3])
            if (offset, data) == (STATUS, b"\0"):
                self.reset()
            elif offset in SELECT:
                self.select[offset - SELECT.start:offset - SELECT.start + len(data)] = data
            elif offset in ADDRESS and number(self.select) < QUEUES:
                self.pages[number(self.select)][offset - ADDRESS.start:offset - ADDRESS.start + len(data)] = data

    def rings(self):
        """Number and first byte of each queue that has its ring."""
        return [(queue, PAGE * number(page)) for queue, page in enumerate(self.pages) if number(page)]


class Named:
    """A table that a descriptor of a ring names, from one place of the member's history on, up to another."""

    def __init__(self, queue, index, found, since):
        self.queue, self.since, self.until = queue, since, None
        self.part = table(found.address, found.length // 16, f"table of descriptor {index}: ")

    def is_in_force(self, place):
        return self.since <= place and (self.until is None or place < self.until)


class Tables:
    """The tables that the descriptors of one member's rings name, as the guest wrote them."""

    def __init__(self):
        self.memory, self.latest, self.named = bytearray(LONGEST_MEMORY), {}, []

    def note(self, place, rings, address, data):
        """What a write of the guest's leaves of them."""
        self.memory[address:address + len(data)] = data
        for queue, start in rings:
            for index in range(SIZE):
                at = start + 16 * index
                if address < at + 16 and at < address + len(data):
                    self.name(place, queue, index, Descriptor(self.memory[at:at + 16]))

    def name(self, place, queue, index, found):
        latest = self.latest.pop((queue, index), None)
        if latest:
            latest.until = place
        if found.names_a_table():
            self.latest[queue, index] = Named(queue, index, found, place)
            self.named.append(self.latest[queue, index])

    def around(self, place, address, length):
        """The table in which these bytes lie: one that is named at this place, else the first that is named later."""
        found = [it for it in self.named if it.part.covers(address, length)]
        later = [it for it in found if it.since > place]
        return next((it for it in found if it.is_in_force(place)), later[0] if later else None)


# ---- a member's history

def bytes_of(digits):
    return bytes.fromhex(digits.replace("-", ""))


def bytes_words(rings, address, data):
    """What these bytes are, where they lie in one part of a ring; nothing where they begin or end inside of a field,
    and None where they lie in no ring."""
    for queue, start in rings:
        for part in PARTS:
            if part.covers(address - start, len(data)):
                found = part.words(address - start, data)
                return f"queue {queue}, {found}" if found else ""
    return None


def table_words(tables, place, address, data):
    """What these bytes are in a table of descriptors that a ring names."""
    named = tables.around(place, address, len(data))
    found = named.part.words(address, data) if named else ""
    return f"queue {named.queue}, {found}" if found else ""


def memory_entries(entries):
    """Each access of memory in a member's history: the entry, where the rings stand, the address and the bytes."""
    addresses = Addresses()
    for entry in entries:
        addresses.note(entry)
        if entry.call[0] in ("memwrite", "memread"):
            digits = entry.call[2] if entry.call[0] == "memwrite" else entry.reply[1]
            yield entry, addresses.rings(), int(entry.call[1]), bytes_of(digits)


def member_words(entries):
    """By entry (its id), what its bytes are in the member's rings at that time, or in the tables that these name."""
    accesses, tables, found = list(memory_entries(entries)), Tables(), {}
    for entry, rings, address, data in accesses:
        if entry.call[0] == "memwrite":
            tables.note(entry.place, rings, address, data)
    for entry, rings, address, data in accesses:
        words = bytes_words(rings, address, data)
        found[id(entry)] = table_words(tables, entry.place, address, data) if words is None else words
    return found


def ring_words(output):
    """The same for all members."""
    found = {}
    for cell, entries in output.cells.items():
        if cell.startswith("member"):
            found.update(member_words(entries))
    return found
