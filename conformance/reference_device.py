"""The transitional devices of reference.py's board: what docs/formats.md says of registers, requests and frames."""
from reference_ring import PAGE, RING, Ring, le, number

SECTOR = 512
COMMON = [(0, 4), (4, 4), (8, 4), (12, 2), (14, 2), (16, 2), (18, 1), (19, 1), (20, 2), (22, 2)]
BLOCK = [(0, 8), (8, 12), (20, 4), (24, 8), (32, 1)]
NET = [(0, 6), (6, 2)]
BLK_RO, BLK_SIZE, BLK_FLUSH, BLK_CONFIG_WCE = 1 << 5, 1 << 6, 1 << 9, 1 << 11
NET_MAC, NET_STATUS = 1 << 5, 1 << 16
ANY_LAYOUT, INDIRECT_DESC, EVENT_IDX = 1 << 27, 1 << 28, 1 << 29


class Device:
    """Registers, memory, disk and waiting frames of one transitional device."""

    def __init__(self, ident, pages, kind):
        self.ident, self.kind = ident, kind
        self.memory = bytearray(PAGE * pages)
        self.is_block = kind[0] == "block"
        self.queues = 1 if self.is_block else 2
        self.disk = bytearray(SECTOR * kind[1]) if self.is_block else b""
        self.msix, self.raised, self.killed = False, 0, None
        self.first_mac = b"" if self.is_block else kind[1]
        self.mac = bytearray(self.first_mac)
        self.reset()

    def reset(self):
        self.features, self.select, self.status = bytearray(4), bytearray(2), bytearray(1)
        self.isr, self.writeback = 0, 1
        self.config_vector, self.vectors = 0xFFFF, [0xFFFF] * self.queues
        self.address = [bytearray(4) for _ in range(self.queues)]
        self.position, self.notified, self.halted = [0] * self.queues, [False] * self.queues, [False] * self.queues
        self.backlog = []

    def selected(self):
        q = number(self.select)
        return q if q < self.queues else None

    # -- features

    def offered(self):
        every = ANY_LAYOUT | INDIRECT_DESC | EVENT_IDX
        if not self.is_block:
            return every | NET_MAC | NET_STATUS
        return every | BLK_SIZE | BLK_FLUSH | BLK_CONFIG_WCE | (BLK_RO if self.kind[2] else 0)

    def has_accepted(self, feature):
        return bool(number(self.features) & feature)

    # -- registers

    def field(self, space, offset, size):
        """The field that the access lies in, or None where it is refused."""
        fields = COMMON[:10 if self.msix else 8] if space == "common" else BLOCK if self.is_block else NET
        inside = [f for f in fields if size and f[0] <= offset and offset + size <= f[0] + f[1]]
        return inside[0] if inside else None

    def content(self, space, at):
        q = self.selected()
        if space == "dev":
            return self.device_structure()[at]
        return {
            0: le(self.offered(), 4), 4: bytes(self.features), 8: bytes(4) if q is None else bytes(self.address[q]),
            12: le(0 if q is None else RING, 2), 14: bytes(self.select), 16: bytes(2), 18: bytes(self.status),
            19: le(self.isr, 1), 20: le(self.config_vector, 2), 22: le(0xFFFF if q is None else self.vectors[q], 2),
        }[at]

    def device_structure(self):
        if not self.is_block:
            return {0: bytes(self.mac), 6: le(1, 2)}
        capacity = le(len(self.disk) // SECTOR, 8)
        return {0: capacity, 8: bytes(12), 20: le(SECTOR, 4), 24: bytes(8), 32: le(self.writeback, 1)}

    def read(self, space, offset, size):
        found = self.field(space, offset, size)
        if found is None:
            return None
        data = self.content(space, found[0])[offset - found[0]:offset - found[0] + size]
        if space == "common" and found[0] == 19:
            self.isr = 0
        return data

    def write(self, space, offset, data):
        found = self.field(space, offset, len(data))
        if found is None or (space == "common" and found[0] == 16 and len(data) != 2):
            return False
        at = offset - found[0]
        old = bytearray(self.content(space, found[0]))
        old[at:at + len(data)] = data
        self.put(space, found[0], old, at, data)
        return True

    def put(self, space, field, new, at, data):
        q = self.selected()
        if space == "dev":
            if self.is_block and field == 32:
                self.writeback = new[0] & 1
            elif not self.is_block and field == 0:
                self.mac = new
        elif field == 4:
            self.features = new
        elif field == 8 and q is not None:
            self.address[q] = new
            self.position[q], self.notified[q], self.halted[q] = 0, False, False
        elif field == 14:
            self.select = new
        elif field == 16:
            self.notify(number(data))
        elif field == 18:
            self.reset() if new == b"\0" else setattr(self, "status", new)
        elif field == 20:
            self.config_vector = self.kept(number(new))
        elif field == 22 and q is not None:
            self.vectors[q] = self.kept(number(new))

    def kept(self, vector):
        return vector if vector <= self.queues else 0xFFFF

    def notify(self, q):
        if q < self.queues and not self.halted[q]:
            self.notified[q] = True

    # -- calls

    def call(self, call):
        what, args = call[0], call[1:]
        if self.killed is not None and what not in ("memread", "memwrite"):
            return ("gone", self.killed)
        return getattr(self, "call_" + what)(*args)

    def call_act(self, access, *args):
        if access == "info":
            return ("info",)
        space, way = access.split("-")
        if way == "read":
            data = self.read(space, *args)
            return ("field",) if data is None else ("data", data)
        return ("ok",) if self.write(space, *args) else ("field",)

    def call_notify(self, q):
        self.notify(q)
        return ("ok",)

    def call_msix(self, on):
        self.msix = on
        return ("ok",)

    def call_memwrite(self, address, data):
        self.memory[address:address + len(data)] = data
        return ("ok",)

    def call_memread(self, address, size):
        return ("data", bytes(self.memory[address:address + size]))

    def call_irqs(self):
        mask, self.raised = self.raised, 0
        return ("irqs", mask)

    def call_arrive(self, frame):
        if len(self.backlog) == 64:
            return ("full",)
        self.backlog.append(frame)
        if not self.halted[0]:
            self.notified[0] = True
        return ("ok",)

    def call_flr(self):
        self.reset()
        self.mac = bytearray(self.first_mac)
        return ("ok",)

    def call_kill(self):
        return ("ok",)

    # -- a step of a queue

    def call_step(self, q):
        if q >= self.queues or self.halted[q] or not self.notified[q]:
            return ("idle",)
        if self.receives(q) and not self.backlog:
            return self.nothing(q)
        ring = Ring(self.memory, number(self.address[q]), self.position[q])
        if not ring.is_there():
            return self.halt(q, "ring")
        if ring.gap() == 0:
            return self.nothing(q)
        if ring.gap() > RING:
            return self.halt(q, "index")
        chain = ring.chain(self.has_accepted(INDIRECT_DESC))
        return self.halt(q, "chain") if chain is None else self.serve(q, ring, chain)

    def serve(self, q, ring, chain):
        readable, room = ring.readable(chain), sum(it.length for it in chain if it.is_written)
        if self.is_block and (len(readable) < 16 or room == 0):
            return self.halt(q, "request")
        if self.receives(q) and 10 + len(self.backlog[0]) > room:
            self.backlog.pop(0)
            return ("dropped",)
        with_events = self.has_accepted(EVENT_IDX)
        is_wanted = ring.wants_interrupt(with_events)
        reply, sent = self.carry_out(q, readable, room)
        ring.use(chain, reply, with_events)
        self.position[q] = (self.position[q] + 1) % 65536
        return ("served", len(reply), self.interrupt(q) if is_wanted else "none", sent)

    def receives(self, q):
        return not self.is_block and q == 0

    def carry_out(self, q, readable, room):
        """The reply, and the frame that is sent."""
        if self.is_block:
            return self.request(readable, room), b""
        if self.receives(q):
            return bytes(10) + self.backlog.pop(0), b""
        return b"", readable[10:] if 24 <= len(readable) <= 1524 else b""

    def nothing(self, q):
        self.notified[q] = False
        return ("empty",)

    def halt(self, q, cause):
        self.halted[q] = True
        return ("halted", cause)

    def interrupt(self, q):
        if not self.msix:
            self.isr = 1
            return "isr"
        if self.vectors[q] == 0xFFFF:
            return "none"
        self.raised |= 1 << self.vectors[q]
        return f"vec {self.vectors[q]}"

    def request(self, readable, room):
        kind, sector, data = number(readable[:4]), number(readable[8:16]), readable[16:]
        capacity, at = len(self.disk) // SECTOR, SECTOR * number(readable[8:16])
        answer, status = bytes(room - 1), 0
        if kind == 0 and (room - 1) % SECTOR == 0 and sector + (room - 1) // SECTOR <= capacity:
            answer = bytes(self.disk[at:at + room - 1])
        elif kind == 1 and len(data) % SECTOR == 0 and sector + len(data) // SECTOR <= capacity and not self.kind[2]:
            self.disk[at:at + len(data)] = data
        elif kind == 8 and room - 1 >= 20:
            answer = f"virtio-group-blk-{self.ident:03}".encode() + bytes(room - 21)
        elif kind != 4:
            status = 1 if kind in (0, 1, 8) else 2
        return answer + le(status, 1)
