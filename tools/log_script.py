"""Makes a script of logs: a guest for each, under a schedule that mixes them."""
import itertools

from access_log import LONGEST_PIECE, Refused

BAR = {"block": 64, "net": 32}
TURNS_OF_A_COMMAND, TURNS_OF_A_SERVICE, PAIRS_A_LINE = 7, 4, 24


class Board:
    """What the script's 'board' line says, and the turns that a guest has one after the other."""

    def __init__(self, queues, size, workers, turns):
        self.queues, self.size, self.workers, self.turns = queues, size, workers, turns


class Line:
    """A line of a script: its actor, its text, and the step of the log that it comes from, with its part of the bytes given."""

    def __init__(self, actor, words, step, given=None):
        self.actor, self.text, self.step, self.given = actor, f"{actor} {words}", step, given


def pieces(start, size):
    return [(at, min(LONGEST_PIECE, start + size - at)) for at in range(start, start + size, LONGEST_PIECE)]


def lines_of_memory(actor, step):
    """Memory is written and read in pieces of at most 512 bytes."""
    address, value = step.values
    if step.what == "mw":
        return [Line(actor, f"mem {at} {value[at - address:at - address + size].hex()}", step) for at, size in pieces(address, len(value))]
    parts = lambda at, size: step.given[at - address:at - address + size] if step.given else None
    return [Line(actor, f"peek {at} {size}", step, parts(at, size)) for at, size in pieces(address, value)]


def lines_of(guest, step):
    """The lines of a script that a step of the log becomes."""
    actor, values = f"g{guest}", step.values
    if step.what in ("mr", "mw"):
        return lines_of_memory(actor, step)
    if step.what == "poll":
        return [Line(actor, f"poll {values[0]}", step)] * values[1]
    if step.what in ("frame", "flr"):
        return [Line("host", f"frame {guest} {values[0].hex()}" if step.what == "frame" else f"flr {guest}", step)]
    words = {
        "r": lambda: f"in {values[0]} {values[1]}", "w": lambda: f"out {values[0]} {values[1].hex()}",
        "cfg": lambda: f"cfg {values[0]} {values[1]}", "irqs": lambda: "irqs",
        "msix": lambda: f"msix {values[0]}", "io": lambda: f"io {values[0]}",
    }[step.what]()
    return [Line(actor, words, step, step.given)]


def turns_of(step, has_io, kind):
    """How many turns a step's line takes its guest, where nobody else serves its queue."""
    if step.what in ("r", "w"):
        size = step.values[1] if step.what == "r" else len(step.values[1])
        if not has_io or step.values[0] + size > BAR[kind]:
            return 0
        return 1 if step.what == "w" and step.values[0] == 16 and size == 2 else TURNS_OF_A_COMMAND
    return 0 if step.what in ("io", "cfg") else 1


class Part:
    """One guest's part of a script: its lines, how many turns they take it, and after how many each line of the host comes."""

    def __init__(self, guest, log):
        self.guest, self.log, self.lines, self.turns, self.events = guest, log, [], 0, []
        has_io = True
        for step in log.steps:
            made = lines_of(guest, step)
            self.lines += made
            if step.what == "io":
                has_io = step.values[0] == "on"
            if made[0].actor == "host":
                self.events.append((self.turns, made[0]))
            else:
                self.turns += len(made) * turns_of(step, has_io, log.device[0])


class Schedule:
    """Pairs of actor and turns, in rounds: each guest has some turns, and then each worker one service."""

    def __init__(self, parts, board):
        self.pairs, self.host_lines = [], []
        check_moments(parts, board)
        if len(parts) == 1 and not parts[0].events and not board.workers:
            return
        done, waiting = [0] * len(parts), [list(part.events) for part in parts]
        while any(count < part.turns or events for part, count, events in zip(parts, done, waiting)):
            for at, part in enumerate(parts):
                done[at] = self.take_turns(part, waiting[at], done[at], min(part.turns, done[at] + board.turns))
            self.pairs += [(f"w{worker}", TURNS_OF_A_SERVICE) for worker in range(board.workers)]

    def take_turns(self, part, waiting, done, upto):
        """Turns of one guest up to so many, and the host's lines whose moments lie there."""
        while waiting and waiting[0][0] <= upto:
            moment, line = waiting.pop(0)
            self.pairs += [(f"g{part.guest}", moment - done)] * (moment > done) + [("host", 1)]
            self.host_lines.append(line)
            done = moment
        self.pairs += [(f"g{part.guest}", upto - done)] * (upto > done)
        return upto

    def lines(self):
        texts = [f"{actor} {sum(count for _, count in group)}" for actor, group in itertools.groupby(self.pairs, lambda it: it[0])]
        return ["go " + " ".join(texts[at:at + PAIRS_A_LINE]) for at in range(0, len(texts), PAIRS_A_LINE)]

    def worker_lines(self, board):
        """One service for each time that a worker has turns; worker K serves queue K, from the first again behind the last."""
        times = sum(actor == "w0" for actor, _ in self.pairs)
        return [f"w{worker} serve {worker % board.queues}" for worker in range(board.workers) for _ in range(times)]


def check_moments(parts, board):
    """A frame or a function reset comes at its moment only where each access takes its guest the same turns."""
    for part in parts:
        if part.events and (board.workers or board.queues < len(parts)):
            step = part.events[0][1].step
            fault = Refused(step.line, f"'{step.what}' comes at its moment only where each guest has a queue of its own and no worker"
                            f" serves it: take --queues {len(parts)} and no --workers")
            fault.guest = part.guest
            raise fault


def guest_line(guest, device):
    return f"guest {guest} {' '.join(map(str, device))}"


def texts_of(part, has_host):
    """A part's lines as texts, with the log's remarks, each with the line that it is, or None."""
    last, remarks = None, part.log.remarks
    if part.lines and remarks.get(part.lines[0].step.line, [])[:1] != [""]:
        yield "", None
    for line in part.lines:
        if line.step.line != last:
            last = line.step.line
            yield from ((it, None) for it in remarks.get(last, []))
        if has_host or line.actor != "host":
            yield line.text, line


def lines_of_script(parts, board, head):
    """Each text line of the script, with the line of a log that it is, or None."""
    plan = Schedule(parts, board)
    yield from ((f"# {it}", None) for it in head)
    yield f"board {board.queues} {board.size} {board.workers}", None
    yield from ((guest_line(part.guest, part.log.device), None) for part in parts)
    for part in parts:
        yield from texts_of(part, len(parts) == 1)
    if len(parts) > 1:
        yield from ((line.text, line) for line in plan.host_lines)
    plain = plan.worker_lines(board) + plan.lines()
    yield from ((it, None) for it in ([""] if plain else []) + plain)


def lines_of_guest(part):
    """The lines of one guest alone, to be put into a board of one's own."""
    yield guest_line(part.guest, part.log.device), None
    yield from texts_of(part, True)
