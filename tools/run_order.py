"""The way of each command through the cells, and an order of all entries in which none stands before one that it needs."""
import bisect
import heapq

from board_output import Refused

LIST_COMMANDS, SMALLEST, WRITTEN_FROM, FIXED = (0, 1), 24, 32, 8


class Command:
    """One administration command: the entries of its way, each None where it has none."""

    STEPS = ("post", "pop", "judge", "act", "complete", "take")

    def __init__(self, post):
        self.post, self.pop, self.judge, self.act, self.complete, self.take = post, None, None, None, None, None
        self.queue, self.seq = post.cell, int(post.reply[1])
        self.data, self.writable = bytes.fromhex(post.call[1].replace("-", "")), int(post.call[2])
        self.guest, self.floor = int(post.call[3]), int(post.call[4])
        padded = self.data + bytes(SMALLEST)
        self.opcode = int.from_bytes(padded[:2], "little")
        self.member = 0 if self.opcode in LIST_COMMANDS else int.from_bytes(padded[16:24], "little")

    def steps(self):
        return [it for it in (getattr(self, name) for name in self.STEPS) if it]

    def service(self):
        """What its server did, in order."""
        return [it for it in (self.pop, self.judge, self.act, self.complete) if it]


def access_bytes(command):
    """Opcode, offset, bytes written and number of bytes read of a register access."""
    offset = command.data[SMALLEST] if len(command.data) > SMALLEST else 0
    return command.opcode, offset, command.data[WRITTEN_FROM:], max(0, command.writable - FIXED)


def claim(command, step, entry):
    if getattr(command, step) is not None:
        raise Refused(entry.line, f"a second {step} of command {command.seq} of {command.queue}")
    setattr(command, step, entry)
    entry.command = command


def commands_of_queue(entries):
    """The commands of one queue, in the order in which they were posted."""
    commands = []
    for entry in entries:
        step = entry.call[0]
        if step == "reset":
            continue
        if step == "post":
            if int(entry.reply[1]) != len(commands):
                raise Refused(entry.line, f"command {entry.reply[1]}, where {len(commands)} is next")
            commands.append(Command(entry))
            entry.command = commands[-1]
            continue
        seq = int(entry.reply[1] if step == "pop" else entry.call[1])
        if seq >= len(commands):
            raise Refused(entry.line, f"command {seq} was never posted on {entry.cell}")
        claim(commands[seq], step, entry)
    return commands


def member_named(entry):
    """The member that a judged command names, 0 for the list commands."""
    data = bytes.fromhex(entry.call[1].replace("-", "")) + bytes(SMALLEST)
    return 0 if int.from_bytes(data[:2], "little") in LIST_COMMANDS else int.from_bytes(data[16:24], "little")


def give_verdicts(commands, owner):
    """Each command that was fetched was judged. A member's commands come one after the other, so their order tells which."""
    waiting = {}
    for command in sorted((it for it in commands if it.pop), key=lambda it: it.floor):
        waiting.setdefault(command.member, []).append(command)
    for queue in waiting.values():
        queue.reverse()
    for entry in owner:
        if entry.call[0] != "judge":
            continue
        queue = waiting.get(member_named(entry))
        if not queue or queue[-1].post.call[1:3] != entry.call[1:]:
            raise Refused(entry.line, "the owner judged a command that no queue has at this point")
        claim(queue.pop(), "judge", entry)
    left = next((it for queue in waiting.values() for it in queue), None)
    if left:
        raise Refused(left.pop.line, f"command {left.seq} of {left.queue} was fetched and never judged")


def give_acts(commands, output):
    """Each command that the owner handed on has one act on its member, in the order of the verdicts."""
    judged = [it for it in commands if it.judge and it.judge.reply[0] == "legacy"]
    waiting = {}
    for command in sorted(judged, key=lambda it: it.judge.place, reverse=True):
        waiting.setdefault(f"member {command.member}", []).append(command)
    for cell, entries in output.cells.items():
        for entry in entries:
            if entry.call[0] == "act":
                if not waiting.get(cell):
                    raise Refused(entry.line, f"an act on {cell} that the owner handed on to nobody")
                claim(waiting[cell].pop(), "act", entry)
    left = next((it for queue in waiting.values() for it in queue), None)
    if left:
        raise Refused(left.judge.line, f"the owner handed command {left.seq} of {left.queue} on, and no member has it")


def find_commands(output):
    """All commands, with the way of each."""
    commands = []
    for cell, entries in output.cells.items():
        if cell.startswith("queue"):
            commands += commands_of_queue(entries)
    give_verdicts(commands, output.cells["owner"])
    give_acts(commands, output)
    return commands


class Order:
    """What must stand before what; `sorted` gives an order that keeps to all of it."""

    def __init__(self, output, commands):
        self.output, self.commands = output, commands
        self.entries = output.entries()
        self.number = {id(entry): at for at, entry in enumerate(self.entries)}
        self.after = [[] for _ in self.entries]
        self.services = self.services_of_actors()
        for entries in output.cells.values():
            self.chain(entries)
        for command in commands:
            self.chain([command.post, *command.service()])
            self.put(command.post, command.take)
        for services in self.services.values():
            self.chain([entry for it in services for entry in it.service()])
        self.order_the_board()
        self.order_the_host()
        for name in output.answers:
            self.order_a_guest(int(name.split()[1]))

    def put(self, first, then):
        if first is not None and then is not None and first is not then:
            self.after[self.number[id(first)]].append(self.number[id(then)])

    def chain(self, entries):
        for first, then in zip(entries, entries[1:]):
            self.put(first, then)

    def services_of_actors(self):
        """The commands that each actor served. The owner's verdicts tell their order."""
        services = {}
        for command in sorted((it for it in self.commands if it.pop), key=lambda it: it.judge.place):
            services.setdefault(command.pop.who, []).append(command)
        return services

    def order_the_board(self):
        """Bring-up comes before everything else, and the drain after it."""
        own = sorted((it for it in self.commands if it.post.who == "board"), key=lambda it: it.post.place)
        vfs = [it for it in self.output.cells["owner"] if it.call[0] == "vfs"]
        bring_up = vfs + [entry for it in own for entry in it.steps()]
        taken = {id(it) for it in bring_up}
        served = [entry for it in self.services.get("board", []) for entry in it.service() if id(entry) not in taken]
        steps = [it for it in self.entries if it.who == "board" and it.call[0] == "step"]
        drain = served + steps
        self.chain(bring_up)
        self.chain(drain)
        for entry in self.entries:
            if entry.who != "board":
                self.put(bring_up[-1] if bring_up else None, entry)
                self.put(entry, drain[0] if drain else None)
        self.in_bring_up, self.in_drain = taken, {id(it) for it in drain}

    def order_the_host(self):
        """Each disabling is a Kill and then the owner's Gone; a reset is all Kills, the owner's and the queues' resets."""
        cells = self.output.cells
        kills = {cell: [it for it in entries if it.call[0] == "kill"] for cell, entries in cells.items() if cell.startswith("member")}
        resets = [[it for it in entries if it.call[0] == "reset"] for cell, entries in cells.items() if cell.startswith("queue")]
        last, count = None, 0
        for entry in (it for it in cells["owner"] if it.call[0] in ("gone", "reset")):
            names = [f"member {entry.call[1]}"] if entry.call[0] == "gone" else sorted(kills, key=lambda it: int(it.split()[1]))
            line = [kills[name].pop(0) for name in names if kills.get(name)] + [entry]
            for kill in line[:-1]:
                kill.part_of = entry
            if entry.call[0] == "reset":
                line += [it[count] for it in resets if count < len(it)]
                count += 1
            self.put(last, line[0])
            self.chain(line)
            last = line[-1]

    def chain_of_guest(self, number):
        """A guest's own calls and commands, one after the other: it makes one access at a time, and a posted command's floor
        tells which of its calls came before."""
        who = f"g{number}"
        own = sorted((it for it in self.commands if it.post.who == who), key=lambda it: it.floor)
        direct = [it for it in self.output.cells[f"member {number}"] if it.who == who and it.call[0] != "act"]
        chain, at = [], 0
        for command in own:
            while at < len(direct) and direct[at].place < command.floor:
                chain.append(direct[at])
                at += 1
            chain.append(command)
        return chain + direct[at:]

    def order_a_guest(self, number):
        line, own, starts = [], [], {}
        for it in self.chain_of_guest(number):
            if isinstance(it, Command):
                own.append(it)
                starts[id(it)] = line[-1] if line else None
                line += [entry for entry in (it.post, it.take) if entry]
            else:
                line.append(it)
        self.chain(line)
        self.order_services_in_accesses(f"g{number}", own, starts)

    def order_services_in_accesses(self, who, own, starts):
        """What a guest serves, it serves between the start of an access over that queue and the Take that ends it."""
        taken = {}
        for command in own:
            if command.take:
                taken.setdefault(command.queue, []).append(command)
        for served in self.services.get(who, []):
            accesses = taken.get(served.queue, [])
            at = bisect.bisect(accesses, served.pop.place, key=lambda it: it.take.place)
            command = accesses[at] if at < len(accesses) else None
            if command is not None and command is not served:
                self.put(starts[id(command)], served.pop)
                self.put(served.service()[-1], command.take)

    def sorted(self):
        """The entries in such an order. It is made from the end, the same actor's as long as it goes: a command comes late."""
        befores, missing = [[] for _ in self.entries], [len(it) for it in self.after]
        for at, afters in enumerate(self.after):
            for then in afters:
                befores[then].append(at)
        free, order, who = {}, [], "board"
        for at, count in enumerate(missing):
            if count == 0:
                self.put_free(free, at)
        while any(free.values()):
            if not free.get(who):
                who = next(it for it in free if free[it])
            at = -heapq.heappop(free[who])
            order.append(self.entries[at])
            for before in befores[at]:
                missing[before] -= 1
                if missing[before] == 0:
                    self.put_free(free, before)
        if len(order) < len(self.entries):
            stuck = next(it for at, it in enumerate(self.entries) if missing[at] > 0)
            raise Refused(stuck.line, f"the histories contradict each other: there is no order in which {stuck.name()} comes")
        return order[::-1]

    def put_free(self, free, at):
        heapq.heappush(free.setdefault(self.entries[at].who, []), -at)
