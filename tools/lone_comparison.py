"""The headline, on outputs: what each guest saw under `step` is what it sees alone.

A guest's own script has its lines, and between them what others did to its device, where the history of its member has it:
frames, resets and steps of its queues, and at last the end of the member. Performed by `alone` it must give the same
answers. One may differ: the guest's latest register access before that end reads all ones where its command was lost.
A block device tells its number with its name, and alone it is number 1: there the name is read as that of the guest."""

ONES = {1: "ff", 2: "ffff", 4: "ffffffff"}
DIRECT = {"mem": "memwrite", "peek": "memread", "irqs": "irqs", "poll": "step", "msix": "msix"}
BAR = {"block": 64, "net": 32}


def name_digits(guest):
    return f"virtio-group-blk-{guest:03}".encode().hex()


class Different(Exception):
    """What isn't as it should be."""


class OwnLine:
    """A line of a guest: its words, the answer under `step`, the call that it makes on the member, and its event's place."""

    def __init__(self, words, answer, call):
        self.words, self.answer, self.call, self.event = words, answer, call, None
        self.is_access = words[0] in ("in", "out")


def calls_of(lines, kind):
    """The call on the member that each line of a guest makes, as words; None where the line stays with the host."""
    has_io, has_msix = True, False
    for words in lines:
        what = words[0]
        if what == "io":
            has_io = words[1] == "on"
        elif what == "msix":
            has_msix = words[1] == "on"
        if what in ("io", "cfg"):
            yield None
        elif what in DIRECT:
            yield [DIRECT[what], *(it.lower() for it in words[1:])]
        else:
            yield register_call(words, has_io, 24 if has_msix else 20, BAR[kind])


def register_call(words, has_io, base, bar):
    what, offset = words[0], int(words[1])
    size = int(words[2]) if what == "in" else len(words[2]) // 2
    if not has_io or offset + size > bar:
        return None
    if what == "out" and offset == 16 and size == 2:
        return ["notify", str(int.from_bytes(bytes.fromhex(words[2]), "little"))]
    space, at = ("common", offset) if offset < base else ("dev", offset - base)
    return ["act", f"{space}-{'read' if what == 'in' else 'write'}", str(at), words[2].lower()]


def is_own(entry, guest):
    """Whether an entry of its member is a guest's event: what it called, and the register accesses that any actor carried out."""
    return entry.who == f"g{guest}" or (entry.call[0] == "act" and entry.call[1] != "info")


def is_register_call(entry):
    return entry.call[0] in ("act", "notify")


def foreign_line(entry):
    """The line of `alone` that does to the device what another actor did; None where it does nothing to it."""
    what, reply = entry.call[0], entry.reply[0]
    if what == "step":
        return f"w0 poll 1 {entry.call[1]}"
    if what == "arrive":
        return f"host frame 1 {entry.call[1]}"
    if what == "flr":
        return "host flr 1"
    if what == "kill" and reply == "ok":
        return "host disable 1"
    if entry.call == ["act", "info"] or what == "kill":
        return None
    raise Different(f"'{entry.text()}' is no call of another actor on a member")


def match(own, entries, guest):
    """Gives each line its event: lines and events are in one order, and each event is one line's. A register access that came
    behind the member's end is no event, and its line stands behind that end."""
    end = next((it.place for it in entries if it.call[0] == "kill"), None)
    events = [it.place for it in entries if is_own(it, guest) and not (is_register_call(it) and end is not None and it.place > end)]
    at = 0
    for line in own:
        if line.call is None or line.answer.startswith("full "):
            continue
        if at < len(events) and entries[events[at]].call == line.call:
            line.event, at = events[at], at + 1
        elif not line.is_access or end is None:
            raise Different(f"guest {guest}: '{' '.join(line.words)}' has no event")
        elif at < len(events) and events[at] < end:
            raise Different(f"guest {guest}: '{' '.join(line.words)}' has no event, and a later line has one before the end")
        else:
            line.event = end
    if at < len(events):
        raise Different(f"guest {guest}: '{entries[events[at]].text()}' is no line's event")
    return end


def lone_lines(own, entries, guest):
    """The lines of the lone script behind `guest`, each with the own line that it is, or None."""
    found, at = [], 0
    for line in own:
        if line.answer.startswith("full "):
            continue
        upto = line.event if line.event is not None else at
        while at < upto or (at == upto and line.event is not None and not is_own(entries[at], guest)):
            if not is_own(entries[at], guest):
                found.append((foreign_line(entries[at]), None))
            at += 1
        found.append((f"g1 {' '.join(line.words)}", line))
    found += [(foreign_line(it), None) for it in entries[at:] if not is_own(it, guest)]
    return [it for it in found if it[0] is not None]


class GroupRun:
    """A script and its output under `step`."""

    def __init__(self, text, output):
        self.output, self.guests, self.lines = output, {}, {}
        for number, line in enumerate(text.split("\n"), 1):
            words = line.split(" ")
            if words[0] == "board":
                self.board = words
            elif words[0] == "guest":
                self.guests[int(words[1])] = words[2:]
                self.lines[int(words[1])] = []
            elif words[0][:1] == "g" and words[0] != "go":
                self.lines[int(words[0][1:])].append((number, words[1:]))

    def own_lines(self, guest):
        answers = self.output.answers[f"guest {guest}"]
        lines = self.lines[guest]
        if [it[0] for it in answers] != [it[0] for it in lines]:
            raise Different(f"guest {guest}: the numbers of its answers aren't those of its lines")
        words = [it[1] for it in lines]
        return [OwnLine(*it) for it in zip(words, (it[1] for it in answers), calls_of(words, self.guests[guest][0]))]

    def lone_script(self, guest):
        """The guest's own script, for each own line in it that line, and where the member ended."""
        own, entries = self.own_lines(guest), self.output.cells[f"member {guest}"]
        end = match(own, entries, guest)
        lines = lone_lines(own, entries, guest)
        head = [f"board {self.board[1]} {self.board[2]} 8", f"guest 1 {' '.join(self.guests[guest])}"]
        return "\n".join(head + [it[0] for it in lines]) + "\n", [it[1] for it in lines if it[1]], end

    def is_lost(self, guest):
        queues = [it for name, it in self.output.cells.items() if name.startswith("queue")]
        return any(it.who == f"g{guest}" and it.call[0] == "take" and it.reply[0] == "lost" for queue in queues for it in queue)

    def compare(self, guest, own, end, lone_text):
        """Whether one answer was in doubt; Different where the answers aren't those of the device that is alone."""
        lone_text = lone_text.replace(name_digits(1), name_digits(guest))
        answers = [it.partition(" ")[2] for it in lone_text.splitlines()[1:-1]]
        for line in own:
            is_after = line.words[0] == "in" and line.event is not None and line.event == end
            if is_after and line.answer != ONES[int(line.words[2])]:
                raise Different(f"guest {guest}: '{' '.join(line.words)}' came behind the member's end and gave {line.answer}")
        if len(answers) != len(own):
            raise Different(f"guest {guest}: {len(own)} lines, and {len(answers)} answers alone")
        differing = [at for at in range(len(own)) if own[at].answer != answers[at]]
        if not differing:
            return False
        line = own[differing[0]]
        before = [it for it in own if it.is_access and it.event is not None and end is not None and it.event < end]
        is_doubt = before and line is before[-1] and line.words[0] == "in" and line.answer == ONES[int(line.words[2])]
        if len(differing) > 1 or not is_doubt or not self.is_lost(guest):
            raise Different(f"guest {guest}: '{' '.join(line.words)}' gave {line.answer}, and alone {answers[differing[0]]}")
        return True
