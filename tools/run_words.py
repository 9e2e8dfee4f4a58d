"""Calls and replies in words, for somebody who knows VIRTIO."""

OPCODES = {
    0: "LIST_QUERY", 1: "LIST_USE", 2: "LEGACY_COMMON_CFG_WRITE", 3: "LEGACY_COMMON_CFG_READ",
    4: "LEGACY_DEV_CFG_WRITE", 5: "LEGACY_DEV_CFG_READ", 6: "LEGACY_NOTIFY_INFO",
}
WRITES, SPACES = (2, 4), {2: "common", 3: "common", 4: "dev", 5: "dev"}
COMMON = [
    (0, 4, "device features"), (4, 4, "driver features"), (8, 4, "queue address"), (12, 2, "queue size"),
    (14, 2, "queue select"), (16, 2, "queue notify"), (18, 1, "device status"), (19, 1, "ISR status"),
    (20, 2, "configuration vector"), (22, 2, "queue vector"),
]
FEATURES = [(1 << 28, "INDIRECT_DESC"), (1 << 29, "EVENT_IDX")]
STATUS_BITS = [(1, "ACKNOWLEDGE"), (2, "DRIVER"), (4, "DRIVER_OK"), (8, "FEATURES_OK"), (64, "DEVICE_NEEDS_RESET"), (128, "FAILED")]
QUALIFIERS = {0: "", 1: ", the opcode", 2: ", a field", 3: ", the group type", 4: ", the member"}
HALTS = {
    "ring": "the queue is halted: its address is 0, or its ring passes the memory",
    "index": "the queue is halted: the available index is more than 16 ahead",
    "chain": "the queue is halted: a bad chain of descriptors",
    "request": "the queue is halted: a request of too few bytes",
}
LONGEST = 32


def cut(digits):
    """HEX, of which only the beginning is shown where it is long."""
    return digits if len(digits) <= 2 * LONGEST else f"{digits[:2 * LONGEST - 16]}… ({len(digits) // 2} bytes)"


def bytes_of(digits):
    return b"" if digits == "-" else bytes.fromhex(digits)


def number_of(digits):
    return int.from_bytes(bytes_of(digits), "little")


def register(space, offset, size):
    """The field that an access names, as far as the output tells."""
    if space == "dev":
        return f"device configuration at {offset}"
    at, length, name = next((it for it in COMMON if it[0] <= offset < it[0] + it[1]), (0, 0, None))
    if name is None:
        return f"byte {offset} of the registers"
    return name if (at, length) == (offset, size) else f"{name}, {size} byte{'s' * (size != 1)} from its byte {offset - at}"


def value(space, offset, digits):
    """The bytes of a register, and what they say where that is of use."""
    data = bytes_of(digits)
    if space == "common" and offset == 18 and len(data) == 1:
        bits = [name for bit, name in STATUS_BITS if data[0] & bit]
        return f"{digits} ({', '.join(bits) or 'no bit'})"
    if space == "common" and offset in (0, 4) and len(data) == 4:
        names = [name for bit, name in FEATURES if number_of(digits) & bit]
        return f"{digits} (with {' and '.join(names)})" if names else digits
    if space == "common" and offset == 8 and len(data) == 4:
        return f"{digits} (page {number_of(digits)})"
    if space == "common" and offset in (12, 14, 20, 22) and len(data) == 2 and digits != "ffff":
        return f"{digits} ({number_of(digits)})"
    return cut(digits)


def access(space, is_write, offset, operand):
    """A register access: the operand of a write is its bytes, that of a read their number."""
    if is_write:
        return f"{register(space, offset, len(bytes_of(operand)))} = {value(space, offset, operand)}"
    return register(space, offset, operand)


def command_words(data, writable):
    """What a command asks for."""
    padded = data + bytes(32)
    opcode, member = int.from_bytes(padded[:2], "little"), int.from_bytes(padded[16:24], "little")
    name = OPCODES.get(opcode, f"opcode {opcode}")
    if opcode == 1:
        return f"{name} {int.from_bytes(padded[24:32], 'little'):#x}"
    if opcode in SPACES:
        operand = data[32:].hex() or "-" if opcode in WRITES else max(0, writable - 8)
        return f"{name} of member {member}: {access(SPACES[opcode], opcode in WRITES, padded[24], operand)}"
    return f"{name} of member {member}" if opcode == 6 else name


def completion_words(command, digits):
    data = bytes_of(digits)
    status, qualifier = int.from_bytes(data[:2], "little"), int.from_bytes(data[2:4], "little")
    if status == 0:
        if command.opcode in SPACES and command.opcode not in WRITES:
            return f"OK, {value(SPACES[command.opcode], (command.data + bytes(25))[24], data[8:].hex() or '-')}"
        return "OK"
    return f"{ {12: 'ENOMEM', 22: 'EINVAL'}.get(status, status) }{QUALIFIERS.get(qualifier, '')}"


def owner_words(entry):
    call, reply = entry.call, entry.reply
    if call[0] == "vfs":
        return f"there are {call[1]} virtual functions", "done", "plain"
    if call[0] == "gone":
        return f"member {call[1]} has gone (from place {call[2]} on)", "noted", "end"
    if call[0] == "reset":
        return "reset of the owner", "done: every member has gone", "end"
    asked = f"judge {command_words(bytes_of(call[1]), int(call[2])).split(':')[0]}"
    if reply[0] == "list":
        return asked, f"the list {int(reply[1]):#x}", "plain"
    if reply[0] == "used":
        return asked, "the list is in use", "plain"
    if reply[0] == "legacy":
        return asked, f"on to member {reply[1]}", "plain"
    return asked, f"refused: {'EINVAL' if reply[1] == '22' else reply[1]}{QUALIFIERS.get(int(reply[2]), '')}", "bad"


def queue_words(entry):
    call, reply, command = entry.call, entry.reply, entry.command
    if call[0] == "reset":
        return "reset of the queue", "closed", "end"
    number = f"command {command.seq}"
    if call[0] == "post":
        return f"post {command_words(command.data, command.writable)}", number, "plain"
    if call[0] == "pop":
        return "fetch", number, "plain"
    if call[0] == "complete":
        words = completion_words(command, call[2])
        return f"complete {number}: {words}", "done", "plain" if words.startswith("OK") else "bad"
    if reply[0] == "lost":
        return f"take {number}", "lost: the queue was reset", "bad"
    words = completion_words(command, command.complete.call[2]) if command.complete else "ready"
    return f"take {number}", words, "plain" if words.startswith("OK") else "bad"


def served_words(reply):
    length, rest = reply[1], reply[2:]
    interrupt = {"none": "no interrupt", "isr": "interrupt by ISR status", "vec": f"interrupt by vector {rest[1]}"}[rest[0]]
    sent = f", sent the frame {cut(rest[-1])}" if rest[-1] != "-" else ""
    return f"served: {length} byte{'s' * (length != '1')} written, {interrupt}{sent}"


def call_on_member(call):
    what, rest = call[0], call[1:]
    if what == "act":
        if rest[0] == "info":
            return "tell where the doorbell is"
        space, way = rest[0].split("-")
        return f"{way} {access(space, way == 'write', int(rest[1]), rest[2] if way == 'write' else int(rest[2]))}"
    return {
        "notify": lambda: f"doorbell of queue {rest[0]}",
        "msix": lambda: f"MSI-X {rest[0]}",
        "flr": lambda: "function level reset",
        "kill": lambda: "disable the member",
        "memwrite": lambda: f"write memory at {rest[0]}: {cut(rest[1])}",
        "memread": lambda: f"read {rest[1]} byte{'s' * (rest[1] != '1')} of memory at {rest[0]}",
        "irqs": lambda: "take the interrupts",
        "step": lambda: f"let it serve its queue {rest[0]}",
        "arrive": lambda: f"a frame comes: {cut(rest[0])}",
    }[what]()


def reply_of_member(call, reply):
    kind = reply[0]
    if kind == "data":
        if call[0] == "act":
            return value(call[1].split("-")[0], int(call[2]), reply[1]), "plain"
        return cut(reply[1]), "plain"
    if kind == "irqs":
        vectors = [str(bit) for bit in range(8) if int(reply[1], 16) >> bit & 1]
        return f"vectors {', '.join(vectors)}" if vectors else "none", "plain" if vectors else "quiet"
    return {
        "ok": lambda: ("done", "plain"),
        "info": lambda: ("BAR 2 of the member", "plain"),
        "field": lambda: ("refused: not wholly inside one field", "bad"),
        "gone": lambda: ("the member has gone", "bad"),
        "served": lambda: (served_words(reply), "good"),
        "empty": lambda: ("nothing to serve", "quiet"),
        "idle": lambda: ("the queue isn't pending", "quiet"),
        "dropped": lambda: ("the frame doesn't fit the chain, and is dropped", "bad"),
        "full": lambda: ("64 frames wait: lost", "bad"),
        "halted": lambda: (HALTS[reply[1]], "bad"),
    }[kind]()


def words_of(entry):
    """The call and the reply in words, and the tone of the reply: plain, good, quiet, bad, or end."""
    kind = entry.cell.split()[0]
    if kind == "owner":
        return owner_words(entry)
    if kind == "queue":
        return queue_words(entry)
    words, tone = reply_of_member(entry.call, entry.reply)
    return call_on_member(entry.call), words, "end" if entry.call[0] == "kill" and tone == "plain" else tone
