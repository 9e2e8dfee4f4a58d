"""Which line of its script each entry of an output is made by."""
from board_output import Refused
from run_order import Command, access_bytes

NOTIFY_AT, BAR_WITHOUT_MSIX, BAR_WITH_MSIX = 16, 20, 24
COMMON_WRITE, COMMON_READ, DEV_WRITE, DEV_READ = 2, 3, 4, 5
DIRECT = {"mem": "memwrite", "peek": "memread", "irqs": "irqs", "poll": "step", "msix": "msix"}


class Script:
    """The lines of each actor, with their numbers, and their texts."""

    def __init__(self, text):
        self.lines, self.texts = {}, {}
        for number, line in enumerate(text.split("\n"), 1):
            words = line.split(" ")
            if line and line[0] != "#" and words[0] not in ("board", "guest", "go"):
                self.lines.setdefault(words[0], []).append((number, words[1:]))
                self.texts[number] = line


def other_script(what):
    return Refused(0, f"the script isn't the one of this output: {what}")


class Guest:
    """Goes along a guest's lines and its calls together."""

    def __init__(self, number, chain):
        self.number, self.chain, self.at, self.msix, self.io = number, chain, 0, False, True

    def next(self):
        return self.chain[self.at] if self.at < len(self.chain) else None

    def take(self, line, words, answer):
        """Gives a line the call that comes next, where the line has made it."""
        if words[0] == "io":
            self.io = words[1] == "on"
        if words[0] in ("io", "cfg") or answer.startswith("full"):
            return
        is_access = words[0] in ("in", "out")
        if self.next() is not None and (self.io and self.made_by_access(words) if is_access else self.made_directly(words)):
            item = self.next()
            self.at += 1
            for entry in item.steps() if isinstance(item, Command) else [item]:
                entry.script_line = line
        elif not is_access:
            raise other_script(f"line {line} of guest {self.number} has made no entry")

    def made_directly(self, words):
        item = self.next()
        if words[0] == "msix":
            self.msix = words[1] == "on"
        wanted = [DIRECT[words[0]], *words[1:]]
        return not isinstance(item, Command) and item.call == [it.lower() for it in wanted]

    def made_by_access(self, words):
        item, offset = self.next(), int(words[1])
        data = bytes.fromhex(words[2]) if words[0] == "out" else b""
        if not isinstance(item, Command):
            return words[0] == "out" and offset == NOTIFY_AT and len(data) == 2 and item.call == ["notify", str(int.from_bytes(data, "little"))]
        base = BAR_WITH_MSIX if self.msix else BAR_WITHOUT_MSIX
        is_common = offset < base
        opcode = (COMMON_WRITE if is_common else DEV_WRITE) if words[0] == "out" else (COMMON_READ if is_common else DEV_READ)
        size = int(words[2]) if words[0] == "in" else 0
        return access_bytes(item) == (opcode, offset if is_common else offset - base, data, size)


def give_guest(output, number, chain, script):
    lines = script.lines.get(f"g{number}", [])
    answers = output.answers[f"guest {number}"]
    if [line for line, _ in answers] != [line for line, _ in lines]:
        raise other_script(f"guest {number} has answers to other lines")
    guest = Guest(number, chain)
    for (line, words), (_, answer) in zip(lines, answers):
        guest.take(line, words, answer)
    if guest.next() is not None:
        raise other_script(f"guest {number} has made a call that no line has")


def calls_of_line(words, members):
    """The calls on members that a line of a worker or the host makes, in order."""
    if words[0] == "poll":
        return [(f"member {words[1]}", ["step", words[2]])]
    if words[0] == "frame":
        return [(f"member {words[1]}", ["arrive", words[2].lower()])]
    if words[0] == "flr":
        return [(f"member {words[1]}", ["flr"])]
    names = members if words[0] == "reset" else [f"member {words[1]}"] if words[0] == "disable" else []
    return [(name, ["kill"]) for name in names]


def give_others(output, who, script):
    """A worker's or the host's lines. Each has made its entries on members, so these come one after the other on each of them."""
    members = sorted((it for it in output.cells if it.startswith("member")), key=lambda it: int(it.split()[1]))
    waiting = {name: [it for it in output.cells[name] if it.who == who and it.call[0] != "act"] for name in members}
    chain = []
    for line, words in script.lines.get(who, []):
        for name, call in calls_of_line(words, members):
            if not waiting.get(name) or waiting[name][0].call != call:
                raise other_script(f"line {line} of {who} has made no entry")
            entry = waiting[name].pop(0)
            entry.script_line = line
            chain.append(entry)
            if call == ["kill"] and entry.part_of:
                entry.part_of.script_line = line
    if any(waiting.values()):
        raise other_script(f"{who} has made a call that no line has")
    return chain


def give_lines(output, order, text):
    """Gives each entry its line of the script, as far as it has one, and orders what the script tells. The lines' texts."""
    script = Script(text)
    for name in output.answers:
        number = int(name.split()[1])
        give_guest(output, number, order.chain_of_guest(number), script)
    for who in sorted({entry.who for entry in order.entries} | set(script.lines)):
        if who[0] == "w" or who == "host":
            order.chain(give_others(output, who, script))
    return script.texts
