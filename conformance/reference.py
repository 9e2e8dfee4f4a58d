#!/usr/bin/env python3
"""A second program for `step`, `alone`, `admin` and `load`: the board in plain Python, written from docs/formats.md.

    conformance/reference.py step|alone|admin < TEXT
    conformance/reference.py load SEED COUNT

It shares nothing with the proved program and isn't proved. It is there to be compared with: what the cases of
conformance/cases expect of whole outputs comes from it, and tools/fuzz compares the two on random texts.
It takes a text that has no fault, and prints what the program prints. Here are its actors, its board and its words;
reference_cells.py has owner, queues and members, reference_device.py a member's device, reference_ring.py the rings.
"""
import sys

from reference_cells import (
    COMMON_READ, COMMON_WRITE, DEV_READ, DEV_WRITE, EINVAL, INFO, INVALID_FIELD, INVALID_MEMBER, QUERY, SUPPORTED, USE,
    Cell, Member, Owner, Queue, access_of)
from reference_ring import le, number

STEPS_OF_DRAIN = 4096


def hex_or_dash(data):
    return data.hex() or "-"


# ---- actors: a line is a generator of asks, each sent its place and reply

def completion(status, qualifier, result, writable):
    return (le(status, 2) + le(qualifier, 2) + bytes(4) + result)[:writable]


INFO_RESULT = bytes([2, 2]) + bytes(62)


def completion_of(verdict, reply, writable):
    """The bytes of a completion, by the owner's verdict and, where that hands the command on, the member's reply."""
    if verdict[0] == "list":
        return completion(0, 0, le(verdict[1], 8), writable)
    if verdict[0] == "used":
        return completion(0, 0, b"", writable)
    if verdict[0] == "refused":
        return completion(verdict[1], verdict[2], b"", writable)
    status = {"field": (EINVAL, INVALID_FIELD), "gone": (EINVAL, INVALID_MEMBER)}.get(reply[0], (0, 0))
    result = reply[1] if reply[0] == "data" else INFO_RESULT if reply[0] == "info" else b""
    return completion(*status, result, writable)


class Actor:
    def __init__(self, board, who, lines):
        self.board, self.who, self.lines, self.at = board, who, lines, 0
        self.line, self.next_ask, self.in_service, self.is_waiting = None, None, False, False
        self.known, self.gone = {}, set()
        self.io, self.msix, self.answers = True, False, []

    def floor(self, m):
        return self.known.get(m, 1 if m == self.who else 0)

    def learn(self, m, floor):
        self.known[m] = max(self.floor(m), floor)

    def has_lines(self):
        return self.line is not None or self.at < len(self.lines)

    def turn(self):
        while self.has_lines():
            if self.line is None:
                self.line, self.at = self.perform(self.lines[self.at]), self.at + 1
                self.next_ask = next(self.line, None)
            if self.next_ask is None:
                self.line = None
                continue
            told = self.ask(*self.next_ask)
            try:
                self.next_ask = self.line.send(told)
            except StopIteration:
                self.line = self.next_ask = None
            return

    def ask(self, cell, call):
        place, reply = self.board.cell(cell).ask(self.who, call)
        if cell[0] == "member":
            self.learn(cell[1], place + 1)
            if reply[0] == "gone":
                self.learn(cell[1], reply[1])
                self.gone.add(cell[1])
        return place, reply

    def perform(self, line):
        """The asks of a line."""
        kind, args = line["what"], line["args"]
        if kind == "serve":
            yield from self.service(args[0])
        elif kind in ("frame", "flr", "poll-of"):
            call = {"frame": ("arrive", *args[1:]), "flr": ("flr",), "poll-of": ("step", *args[1:])}[kind]
            yield ("member", args[0]), call
        elif kind == "disable":
            yield ("member", args[0]), ("kill",)
            yield ("owner",), ("gone", args[0], self.floor(args[0]))
        elif kind == "reset":
            yield from self.reset_all()
        else:
            words = yield from self.guest_line(kind, args, line)
            self.answers.append((line["number"], words))

    def reset_all(self):
        members = range(1, len(self.board.members) + 1)
        for m in members:
            yield ("member", m), ("kill",)
        floors = [self.floor(m) for m in members]
        yield ("owner",), ("reset", floors)
        for k in range(len(self.board.queues)):
            yield ("queue", k), ("reset", floors)

    def service(self, k):
        _, reply = yield ("queue", k), ("pop",)
        if reply[0] != "seq":
            return
        self.in_service = True
        seq = reply[1]
        command = self.board.queues[k].commands[seq]
        data, writable, floor = command["data"], command["writable"], command["tag"][1]
        _, verdict = yield ("owner",), ("judge", data, writable)
        reply = None
        if verdict[0] == "refused":
            floor = max(floor, verdict[3])
        elif verdict[0] == "legacy":
            place, reply = yield ("member", verdict[1]), ("act", *access_of(data, writable))
            floor = max(floor, place + 1)
        done = completion_of(verdict, reply, writable)
        yield ("queue", k), ("complete", seq, done, floor)
        self.in_service = False

    # -- a guest's lines

    def guest_line(self, kind, args, line):
        me = ("member", self.who)
        if kind == "io":
            self.io = args[0]
            return "ok"
        if kind == "cfg":
            return self.configuration(*args)
        if kind in ("in", "out"):
            return (yield from self.access(kind, args, line))
        call = {"mem": "memwrite", "peek": "memread", "msix": "msix", "irqs": "irqs", "poll": "step"}[kind]
        if kind == "msix":
            self.msix = args[0]
        _, reply = yield me, (call, *args)
        return words_of(reply)

    def configuration(self, offset, size):
        block = self.board.kind(self.who)[0] == "block"
        space = bytearray(64)
        words = {0: 0x1AF4, 2: 0x1001 if block else 0x1000, 4: int(self.io), 16: 1, 44: 0x1AF4, 46: 2 if block else 1}
        for at, value in words.items():
            space[at:at + 2] = le(value, 2)
        space[11] = 1 if block else 2
        return bytes(space[offset:offset + size]).hex() if offset + size <= 64 else "ff" * size

    def access(self, kind, args, line):
        offset, size = args[0], args[1] if kind == "in" else len(args[1])
        ones = "ff" * size if kind == "in" else "ok"
        bar = 64 if self.board.kind(self.who)[0] == "block" else 32
        if not self.io or offset + size > bar or self.who in self.gone:
            return ones
        if kind == "out" and offset == 16 and size == 2:
            yield ("member", self.who), ("notify", number(args[1]))
            return "ok"
        base = 24 if self.msix else 20
        is_common = offset < base
        opcode = {"out": (DEV_WRITE, COMMON_WRITE), "in": (DEV_READ, COMMON_READ)}[kind][is_common]
        data = le(opcode, 2) + le(1, 2) + bytes(12) + le(self.who, 8) + le(offset if is_common else offset - base, 1)
        data += bytes(7) + args[1] if kind == "out" else b""
        writable = 8 + (size if kind == "in" else 0)
        k = self.who % len(self.board.queues) if line["queue"] is None else line["queue"]
        while True:
            place, reply = yield ("queue", k), ("post", data, writable, self.who, self.floor(self.who))
            if reply[0] == "closed":
                self.learn(self.who, reply[1])
                self.gone.add(self.who)
                return ones
            if reply[0] == "seq":
                break
            if line["once"]:
                return f"full {k} {place}"
            yield from self.service(k)
        return (yield from self.take(k, reply[1], kind, ones))

    def take(self, k, seq, kind, ones):
        self.is_waiting = True
        while True:
            _, reply = yield ("queue", k), ("take", seq)
            if reply[0] != "not-yet":
                break
            yield from self.service(k)
        self.is_waiting = False
        self.learn(self.who, reply[1])
        if reply[0] == "lost":
            self.gone.add(self.who)
            return ones
        done = reply[2]
        if number(done[:2]) == 0:
            return done[8:].hex() if kind == "in" else "ok"
        if number(done[2:4]) != INVALID_FIELD:
            self.gone.add(self.who)
        return ones


# ---- the board

class Board:
    def __init__(self, script):
        self.script = script
        self.owner = Owner()
        self.queues = [Queue(script["size"]) for _ in range(script["queues"])]
        self.members = [Member(n + 1, pages, kind) for n, (pages, kind) in enumerate(script["guests"])]
        numbers = [*range(1, len(self.members) + 1), *range(17, 17 + script["workers"]), 25]
        self.actors = {who: Actor(self, who, [it for it in script["lines"] if it["who"] == who]) for who in numbers}
        self.left = []

    def kind(self, m):
        return self.members[m - 1].device.kind

    def cell(self, name):
        if name[0] == "owner":
            return self.owner
        return self.queues[name[1]] if name[0] == "queue" else self.members[name[1] - 1]

    def bring_up(self):
        me = Actor(self, 0, [])
        me.ask(("owner",), ("vfs", len(self.members)))
        commands = [(le(QUERY, 2) + le(1, 2) + bytes(20), 16, 0)]
        commands += [(le(USE, 2) + le(1, 2) + bytes(20) + le(SUPPORTED, 8), 8, 0)]
        commands += [(le(INFO, 2) + le(1, 2) + bytes(12) + le(m + 1, 8), 72, m + 1) for m in range(len(self.members))]
        for data, writable, guest in commands:
            _, posted = me.ask(("queue", 0), ("post", data, writable, guest, 0))
            self.serve(me, 0)
            me.ask(("queue", 0), ("take", posted[1]))

    def serve(self, actor, k):
        """One whole service; whether it found a command."""
        service, told = actor.service(k), None
        try:
            while True:
                told = actor.ask(*service.send(told))
        except StopIteration:
            return told[1][0] != "empty"

    def settle(self):
        for actor in self.actors.values():
            while actor.in_service:
                actor.turn()
        for who, actor in self.actors.items():
            while who <= 16 and actor.is_waiting:
                actor.turn()
        for actor in self.actors.values():
            while actor.has_lines():
                actor.turn()

    def drain(self):
        me = Actor(self, 0, [])
        for k in range(len(self.queues)):
            while self.serve(me, k):
                pass
        for m, member in enumerate(self.members, 1):
            for q in range(member.device.queues):
                for _ in range(STEPS_OF_DRAIN):
                    if me.ask(("member", m), ("step", q))[1][0] in ("idle", "gone"):
                        break
                else:
                    self.left.append((m, q))

    def run(self):
        self.bring_up()
        for who, count in self.script["turns"]:
            for _ in range(count):
                if not self.actors[who].has_lines():
                    break
                self.actors[who].turn()
        self.settle()
        self.drain()

    def text(self):
        lines = []
        for m in range(1, len(self.members) + 1):
            lines += [f"guest {m}", *(f"{at} {words}" for at, words in self.actors[m].answers)]
        cells = [("owner", self.owner), *((f"queue {k}", it) for k, it in enumerate(self.queues))]
        cells += [(f"member {m}", it) for m, it in enumerate(self.members, 1)]
        for name, cell in cells:
            lines += [name, *(entry_words(place, *it) for place, it in enumerate(cell.entries))]
        return lines + [f"left {m} {q}" for m, q in self.left] + ["end"]


def alone(script):
    """The guest's transcript over a device that is attached directly."""
    board = Board(script)
    guest, device = board.actors[1], board.members[0].device
    for line in script["lines"]:
        kind, args = line["what"], line["args"]
        if kind in ("disable", "reset"):
            device.killed = 0
        elif kind in ("frame", "flr", "poll-of"):
            device.call({"frame": ("arrive", *args[1:]), "flr": ("flr",), "poll-of": ("step", *args[1:])}[kind])
        elif line["who"] == 1:
            guest.answers.append((line["number"], alone_words(guest, device, line)))
    return ["guest 1", *(f"{at} {words}" for at, words in guest.answers), "end"]


def alone_words(guest, device, line):
    kind, args = line["what"], line["args"]
    if kind not in ("in", "out"):
        asks = guest.guest_line(kind, args, line)
        try:
            _, call = next(asks)
            asks.send((0, device.call(call)))
        except StopIteration as end:
            return end.value
    offset, size = args[0], args[1] if kind == "in" else len(args[1])
    inside = guest.io and offset + size <= (64 if device.is_block else 32) and device.killed is None
    base = 24 if device.msix else 20
    space, at = ("common", offset) if offset < base else ("dev", offset - base)
    if kind == "out":
        if inside:
            device.write(space, at, args[1])
        return "ok"
    data = device.read(space, at, size) if inside else None
    return "ff" * size if data is None else data.hex()


# ---- administration commands by themselves

def admin(text):
    """The completions of a text's commands, over an owner with 16 members."""
    owner = Owner()
    members = [Member(n, 1, ("block", 8, False) if n % 2 else ("net", bytes([2, 0, 0, 0, 0, n]))) for n in range(1, 17)]
    answers = []
    for line in text.split("\n"):
        words = line.split(" ")
        if words[0] == "vfs":
            owner.ask(0, ("vfs", int(words[1])))
        elif words[0] == "reset":
            for member in members:
                member.ask(0, ("kill",))
            owner.ask(0, ("reset", [len(it.entries) for it in members]))
        elif words[0] == "cmd":
            answers.append(f"done {hex_or_dash(answer_command(owner, members, words[2], int(words[1])))}")
    return answers


def answer_command(owner, members, digits, writable):
    data = b"" if digits == "-" else bytes.fromhex(digits)
    _, verdict = owner.ask(0, ("judge", data, writable))
    reply = members[verdict[1] - 1].ask(0, ("act", *access_of(data, writable)))[1] if verdict[0] == "legacy" else None
    return completion_of(verdict, reply, writable)


# ---- words

def name_of(who):
    return "board" if who == 0 else f"g{who}" if who <= 16 else "host" if who == 25 else f"w{who - 17}"


def entry_words(place, who, call, reply):
    return f"{place} {name_of(who)} {call_words(call)} -> {reply_words(call, reply)}"


def words_of(reply):
    kind = reply[0]
    if kind == "data":
        return reply[1].hex()
    if kind == "irqs":
        return f"{reply[1]:02x}"
    return f"halted {reply[1]}" if kind == "halted" else kind


def value_words(value):
    if isinstance(value, list):
        return " ".join(str(it) for it in value)
    return hex_or_dash(value) if isinstance(value, (bytes, bytearray)) else str(value)


def call_words(call):
    if call[0] == "msix":
        return "msix on" if call[1] else "msix off"
    return " ".join(it for it in (call[0], *map(value_words, call[1:])) if it)


def reply_words(call, reply):
    kind = reply[0]
    if kind == "irqs":
        return f"irqs {reply[1]:02x}"
    args = reply[1:2] if kind == "ready" else reply[1:]
    return " ".join([kind, *map(value_words, args)])


# ---- the script

def actor_of(word):
    return 25 if word == "host" else int(word[1:]) + (17 if word[0] == "w" else 0)


def read_line(at, words):
    line = {"number": at, "who": actor_of(words[0]), "what": words[1], "args": [], "queue": None, "once": False}
    rest = words[2:]
    if words[1] in ("in", "out"):
        for it in rest[2:]:
            line["once"], line["queue"] = line["once"] or it == "once", int(it[1:]) if it[0] == "@" else line["queue"]
        rest = rest[:2]
    if words[1] in ("msix", "io"):
        line["args"] = [rest[0] == "on"]
    elif words[1] in ("out", "mem", "frame"):
        line["args"] = [int(rest[0]), bytes.fromhex(rest[1])]
    else:
        line["args"] = [int(it) for it in rest]
    if words[0][0] == "w" and words[1] == "poll":
        line["what"] = "poll-of"
    return line


def read_script(text):
    script = {"guests": [], "lines": [], "turns": []}
    for at, line in enumerate(text.split("\n"), 1):
        if not line or line[0] == "#":
            continue
        words = line.split(" ")
        if words[0] == "board":
            script["queues"], script["size"], script["workers"] = int(words[1]), int(words[2]), int(words[3])
        elif words[0] == "guest":
            kind = ("block", int(words[4]), len(words) > 5) if words[2] == "block" else ("net", bytes.fromhex(words[4]))
            script["guests"].append((int(words[3]), kind))
        elif words[0] == "go":
            script["turns"] += [(actor_of(who), int(count)) for who, count in zip(words[1::2], words[2::2])]
        else:
            script["lines"].append(read_line(at, words))
    return script


def answer(command, text):
    if command == "admin":
        lines = admin(text)
    elif command == "alone":
        lines = alone(read_script(text))
    else:
        board = Board(read_script(text))
        board.run()
        lines = board.text()
    return "".join(it + "\n" for it in lines)


# ---- the script that is made of a seed, and the summary of its run

def loaded(seed, count):
    lines = ["board 1 4 0", "guest 1 block 4 8", "guest 2 net 4 020000000002"]
    lines += ["guest 3 block 4 8", "guest 4 net 4 020000000004"]
    state = seed
    for _ in range(count):
        state = (state * 6364136223846793005 + 1442695040888963407) % 2 ** 64
        drawn = state >> 33
        asked = ["in 18 1", f"out 14 {le(drawn // 16 % 4, 2).hex()}", "in 12 2", "in 19 1"][drawn // 4 % 4]
        lines.append(f"g{1 + drawn % 4} {asked}")
    return "\n".join(lines) + "\n"


def load(seed, count):
    script = read_script(loaded(seed, count))
    board = Board(script)
    board.run()
    commands = sum(len(queue.commands) for queue in board.queues)
    kinds = {line["number"]: line["what"] for line in script["lines"]}
    answers = [it for m in range(1, 5) for it in board.actors[m].answers]
    total = sum(sum(bytes.fromhex(words)) for at, words in answers if kinds[at] == "in")
    counts = [list(kinds.values()).count(kind) for kind in ("in", "out")]
    return f"commands {commands}\nreads {counts[0]}\nwrites {counts[1]}\nsum {total}\nend\n"


def main():
    words = sys.argv[1:]
    if len(words) == 3 and words[0] == "load":
        sys.stdout.write(load(int(words[1]), int(words[2])))
    elif words in (["step"], ["alone"], ["admin"]):
        sys.stdout.write(answer(words[0], sys.stdin.read()))
    else:
        sys.exit(__doc__)


if __name__ == "__main__":
    main()
