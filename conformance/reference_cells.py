"""The cells of reference.py's board: a member, the owner or a queue, each with its history (docs/formats.md)."""
from reference_device import Device
from reference_ring import number

SUPPORTED = 0x7F
QUERY, USE, COMMON_WRITE, COMMON_READ, DEV_WRITE, DEV_READ, INFO = range(7)
EINVAL, INVALID_OPCODE, INVALID_FIELD, INVALID_GROUP, INVALID_MEMBER = 22, 1, 2, 3, 4


class Cell:
    quiet = set()

    def __init__(self):
        self.entries = []

    def ask(self, who, call):
        """The place and the reply; a quiet reply leaves no entry."""
        place, reply = len(self.entries), self.answer(call)
        if reply[0] not in self.quiet:
            self.entries.append((who, call, reply))
        return place, reply


class Member(Cell):
    def __init__(self, ident, pages, kind):
        super().__init__()
        self.device = Device(ident, pages, kind)

    def answer(self, call):
        reply = self.device.call(call)
        if call[0] == "kill" and reply[0] == "ok":
            self.device.killed = len(self.entries) + 1
        return reply


class Owner(Cell):
    def __init__(self):
        super().__init__()
        self.vfs, self.used, self.away, self.floors = 0, 0, set(), {}

    def answer(self, call):
        if call[0] == "judge":
            return self.judge(*call[1:])
        if call[0] == "vfs":
            self.vfs = call[1]
        elif call[0] == "gone":
            self.away.add(call[1])
            self.floors[call[1]] = call[2]
        else:
            self.vfs, self.used = 0, 0
            self.floors = {m + 1: floor for m, floor in enumerate(call[1])}
        return ("ok",)

    def judge(self, data, writable):
        data = data + bytes(max(0, 40 - len(data)))
        opcode, group, member = number(data[:2]), number(data[2:4]), number(data[16:24])
        refused = lambda qualifier: ("refused", EINVAL, qualifier, self.floors.get(member, 0))
        if group != 1:
            return refused(INVALID_GROUP)
        if opcode > INFO or not (opcode < 2 or self.used >> opcode & 1):
            return refused(INVALID_OPCODE)
        if opcode == QUERY:
            return ("list", SUPPORTED)
        if opcode == USE:
            bits = number(data[24:32])
            if bits > SUPPORTED:
                return refused(INVALID_FIELD)
            self.used = bits
            return ("used",)
        if not 1 <= member <= self.vfs or member in self.away:
            return refused(INVALID_MEMBER)
        return ("legacy", member)


def access_of(data, writable):
    """The register access of a command that the owner hands on."""
    opcode, offset = number(data[:2]), data[24] if len(data) > 24 else 0
    if opcode == INFO:
        return ("info",)
    if opcode in (COMMON_READ, DEV_READ):
        return ("common-read" if opcode == COMMON_READ else "dev-read", offset, max(0, writable - 8))
    return ("common-write" if opcode == COMMON_WRITE else "dev-write", offset, data[32:])


class Queue(Cell):
    quiet = {"full", "closed", "empty", "in-service", "stale", "not-yet"}

    def __init__(self, size):
        super().__init__()
        self.size, self.commands, self.waiting, self.serving, self.closed = size, [], [], None, None

    def answer(self, call):
        return getattr(self, "answer_" + call[0])(*call[1:])

    def floor_for(self, guest):
        return self.closed[guest - 1] if 1 <= guest <= len(self.closed) else 0

    def answer_post(self, data, writable, guest, floor):
        if self.closed is not None:
            return ("closed", self.floor_for(guest))
        if sum(not c["taken"] for c in self.commands) >= self.size // 2:
            return ("full",)
        self.commands.append({"data": data, "writable": writable, "tag": (guest, floor), "done": None, "taken": False})
        self.waiting.append(len(self.commands) - 1)
        return ("seq", len(self.commands) - 1)

    def answer_pop(self):
        if self.closed is not None:
            return ("empty",)
        if self.serving is not None:
            return ("in-service", self.serving)
        if not self.waiting:
            return ("empty",)
        self.serving = self.waiting.pop(0)
        return ("seq", self.serving)

    def answer_complete(self, seq, data, floor):
        if self.closed is not None or self.serving != seq:
            return ("stale",)
        self.commands[seq]["done"], self.serving = (data, floor), None
        return ("ok",)

    def answer_take(self, seq):
        command = self.commands[seq]
        if command["done"] is not None:
            command["taken"] = True
            return ("ready", command["done"][1], command["done"][0][:command["writable"]])
        if self.closed is not None:
            command["taken"] = True
            return ("lost", self.floor_for(command["tag"][0]))
        return ("not-yet",)

    def answer_reset(self, floors):
        self.closed = floors
        return ("ok",)
