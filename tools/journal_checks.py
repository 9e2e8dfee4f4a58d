"""What an output of `step` or `run` keeps under any schedule, as far as the output shows it. It shows each cell's history and
each guest's answers; in which order calls on different cells came it doesn't show.

histories: the board of conformance/reference.py comes up, then its cells are given the other actors' calls in the printed
order, then it drains. What its histories then are is to the byte what was printed: so each reply is the answer to its call
over the entries before it, and the board's entries stand first and last, and are those of bring-up and of the drain.
commands: each is fetched once, completed once by who fetched it, and taken once by who posted it, unless its queue was reset;
who fetches it asks the owner for its verdict and carries it out, once each, as it was posted, and completes it with what came
of that.
full answers: at the place that the answer names half of the queue was outstanding.
"""
import collections
import os
import sys

from board_output import TABLES, fits
from lone_comparison import Different

sys.path.insert(0, os.path.join(os.path.dirname(os.path.dirname(os.path.abspath(__file__))), "conformance"))
import reference  # noqa: E402


def value(word, form):
    if form == "H":
        return b"" if word == "-" else bytes.fromhex(word)
    return int(word) if form == "N" else word


def call_of(entry):
    """The call of a printed entry, as the reference makes it."""
    kind, *words = entry.call
    if kind == "msix":
        return ("msix", words[0] == "on")
    if kind == "reset":
        return ("reset", [int(it) for it in words])
    form = next(it for it, _ in TABLES[entry.cell.split()[0]][kind] if fits(entry.call, it))
    return (kind, *(value(*it) for it in zip(words, form[1:])))


def cells_of(board, output):
    """Each cell of the reference's board with the printed entries."""
    yield board.owner, output.cells["owner"]
    for kind, cells, first in (("queue", board.queues, 0), ("member", board.members, 1)):
        for at, cell in enumerate(cells, first):
            yield cell, output.cells[f"{kind} {at}"]


def check_histories(text, printed, output):
    board = reference.Board(reference.read_script(text))
    names = ["owner", *(f"queue {k}" for k in range(len(board.queues))), *(f"member {m + 1}" for m in range(len(board.members)))]
    if list(output.cells) != names:
        raise Different(f"the sections {list(output.cells)}, and not {names}")
    board.bring_up()
    for cell, entries in cells_of(board, output):
        for entry in entries:
            if entry.who != "board":
                try:
                    cell.ask(reference.actor_of(entry.who), call_of(entry))
                except IndexError:
                    raise Different(f"'{entry.text()}' of {entry.cell} names what isn't there") from None
    for k, queue in enumerate(board.queues):
        if queue.serving is not None and queue.closed is None:
            raise Different(f"command {queue.serving} of queue {k} is fetched, and not completed")
    board.drain()
    due = board.text()
    due, got = due[due.index("owner"):], printed.splitlines()
    got = got[got.index("owner"):]
    if got != due:
        pair = next(it for it in zip(got + ["nothing"], due + ["nothing"]) if it[0] != it[1])
        raise Different(f"'{pair[0][:200]}' is printed, where '{pair[1][:200]}' is the answer")


def reply_of(entry):
    """The reply of a printed entry, as the reference makes it."""
    kind, *words = entry.reply
    if kind == "data":
        return ("data", value(words[0], "H"))
    return (kind, *(int(it) for it in words))


def check_commands(output):
    """Services across the cells: what each actor fetched it had judged, and carried out what the verdict said, in the same order,
    each once; and with what came of it the command was completed."""
    fetched, completed = collections.Counter(), collections.Counter()
    for name, entries in output.cells.items():
        if name.startswith("queue"):
            check_queue(name, entries, fetched, completed)
    due = services(output)
    judged = collections.Counter(it[:3] for it in due.elements())
    for one, other, what in ((fetched, judged, "fetched, and not judged by the same actor"),
                             (judged, fetched, "judged, and not fetched by the same actor"),
                             (completed, due, "completed in another way than it was carried out")):
        if one - other:
            who, data, *_ = next((one - other).elements())
            raise Different(f"command {data.hex() or '-'} was {what} ({who})")


def services(output):
    """For each command that was judged: by whom, its bytes and its writable length, and the bytes of the completion that is due."""
    acts = collections.defaultdict(list)
    for name, entries in output.cells.items():
        for entry in entries:
            if entry.call[0] == "act":
                acts[entry.who, name].append(entry)
    found = collections.Counter()
    for entry in output.cells["owner"]:
        if entry.call[0] == "judge":
            _, data, writable = call_of(entry)
            verdict, reply = reply_of(entry), None
            if verdict[0] == "legacy":
                waiting = acts[entry.who, f"member {verdict[1]}"]
                if not waiting or call_of(waiting[0])[1:] != reference.access_of(data, writable):
                    raise Different(f"owner {entry.place} was not carried out by the same actor")
                reply = reply_of(waiting.pop(0))
            found[entry.who, data, writable, reference.completion_of(verdict, reply, writable)] += 1
    for entry in (it for them in acts.values() for it in them):
        raise Different(f"'{entry.text()}' of {entry.cell} carries out what its actor had no verdict on")
    return found


def check_queue(name, entries, fetched, completed):
    """Counts the commands that were fetched, with who fetched them, and those that were completed, with the completion."""
    posted, popped, ended, taken = {}, {}, {}, {}
    for entry in entries:
        what = entry.call[0]
        if what == "post":
            posted[int(entry.reply[1])] = (entry.who, *call_of(entry)[1:3])
        elif what != "reset":
            seq = int(entry.reply[1] if what == "pop" else entry.call[1])
            once = {"pop": popped, "complete": ended, "take": taken}[what]
            if seq in once or seq not in posted:
                raise Different(f"'{entry.text()}' of {name} isn't the one {what} of a posted command")
            once[seq] = entry.who
            if what == "pop":
                fetched[(entry.who, *posted[seq][1:])] += 1
            if what == "complete":
                if popped.get(seq) != entry.who:
                    raise Different(f"'{entry.text()}' of {name} completes what another fetched")
                completed[(entry.who, *posted[seq][1:], value(entry.call[2], "H"))] += 1
            if what == "take" and posted[seq][0] != entry.who:
                raise Different(f"'{entry.text()}' of {name} takes what another posted")
    if all(it.call[0] != "reset" for it in entries):
        for what, ones in (("fetched", popped), ("completed", ended), ("taken", taken)):
            if set(ones) != set(posted):
                raise Different(f"commands of {name} that weren't {what}: {sorted(set(posted) - set(ones))}")


def check_full(text, output):
    """Answers `full K P`."""
    size = int(next(it for it in text.split("\n") if it.startswith("board ")).split(" ")[2])
    for name, answers in output.answers.items():
        for line, answer in answers:
            words = answer.split(" ")
            if words[0] == "full":
                before = output.cells[f"queue {words[1]}"][:int(words[2])]
                outstanding = sum(it.call[0] == "post" for it in before) - sum(it.call[0] == "take" for it in before)
                if outstanding != size // 2:
                    raise Different(f"{name}: line {line} was answered '{answer}', where {outstanding} were outstanding")


def check_journal(text, printed, output):
    """Different where the output isn't that of a legal journal of the script, as far as it shows."""
    check_histories(text, printed, output)
    check_commands(output)
    check_full(text, output)


def by_themselves(text):
    """The guests whose answers don't depend on the order of the actors' calls: no other actor touches their members, the group
    isn't reset, and none of their lines ends at a full queue."""
    lines = [it.split(" ") for it in text.split("\n") if it and it[0] != "#"]
    guests = {int(it[1]) for it in lines if it[0] == "guest"}
    for words in lines:
        if words[:2] == ["host", "reset"]:
            return []
        if words[0] == "host" or (words[0][0] == "w" and words[1] == "poll"):
            guests.discard(int(words[2]))
        elif words[0][0] == "g" and words[-1] == "once":
            guests.discard(int(words[0][1:]))
    return sorted(guests)
