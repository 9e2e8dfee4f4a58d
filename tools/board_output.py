"""Reads an output of `step` or `run` (docs/formats.md): what each guest saw, and the history of each cell."""
import re

# A form of an entry: the words of its call, and behind '->' those of each reply. N is a number, H HEX or '-', N* numbers.
FORMS = {
    "owner": [
        "vfs N -> ok",
        "judge H N -> list N | used | refused N N N | legacy N",
        "gone N N -> ok",
        "reset N* -> ok",
    ],
    "queue": [
        "post H N N N -> seq N",
        "pop -> seq N",
        "complete N H N -> ok",
        "take N -> ready N | lost N",
        "reset N* -> ok",
    ],
    "member": [
        "act common-write N H -> ok | field | gone N",
        "act dev-write N H -> ok | field | gone N",
        "act common-read N N -> data H | field | gone N",
        "act dev-read N N -> data H | field | gone N",
        "act info -> info | gone N",
        "notify N -> ok | gone N",
        "msix on -> ok | gone N",
        "msix off -> ok | gone N",
        "flr -> ok | gone N",
        "kill -> ok | gone N",
        "memwrite N H -> ok",
        "memread N N -> data H",
        "irqs -> irqs H | gone N",
        "step N -> served N none H | served N isr H | served N vec N H | empty | idle | dropped | gone N"
        " | halted ring | halted index | halted chain | halted request",
        "arrive H -> ok | full | gone N",
    ],
}
PLACEHOLDERS = {"N": re.compile(r"0|[1-9][0-9]*").fullmatch, "H": re.compile(r"-|(?:[0-9a-f]{2})+").fullmatch}
ACTOR = re.compile(r"board|host|g(?:[1-9]|1[0-6])|w[0-7]").fullmatch
SECTION = re.compile(r"guest [1-9][0-9]*|owner|queue [0-9]+|member [1-9][0-9]*").fullmatch


class Refused(Exception):
    """A text that can't be read, with the number of its line and what is wrong there."""

    def __init__(self, line, cause):
        super().__init__(f"line {line}: {cause}" if line else cause)


class Entry:
    """One call on one cell. What else is known of it is found later: its command,
    the owner's entry that a Kill belongs to, its line of the script."""

    def __init__(self, cell, place, who, call, reply, line):
        self.cell, self.place, self.who, self.call, self.reply, self.line = cell, place, who, call, reply, line
        self.command, self.part_of, self.script_line = None, None, None

    def name(self):
        return f"{self.cell} {self.place}"

    def text(self):
        return f"{self.place} {self.who} {' '.join(self.call)} -> {' '.join(self.reply)}"


class Output:
    """The answers of each guest, the cells with their entries, and the queues that the drain left."""

    def __init__(self):
        self.answers, self.cells, self.left = {}, {}, []

    def entries(self):
        return [entry for cell in self.cells.values() for entry in cell]


def compiled(forms):
    """Call words and the replies' words of each form, by the call's first word."""
    table = {}
    for form in forms:
        call, _, replies = form.partition(" -> ")
        table.setdefault(call.split()[0], []).append((call.split(), [it.split() for it in replies.split(" | ")]))
    return table


TABLES = {kind: compiled(forms) for kind, forms in FORMS.items()}


def fits(words, form):
    if form[-1] == "N*":
        count = len(words) - len(form) + 1
        form = form[:-1] + ["N"] * max(0, count)
    return len(words) == len(form) and all(PLACEHOLDERS[f](w) if f in PLACEHOLDERS else w == f for w, f in zip(words, form))


def read_entry(cell, text, line):
    words = text.split(" ")
    if "->" not in words or len(words) < 5:
        raise Refused(line, "an entry has the form 'PLACE WHO CALL -> REPLY'")
    arrow = words.index("->")
    place, who, call, reply = words[0], words[1], words[2:arrow], words[arrow + 1:]
    if not PLACEHOLDERS["N"](place):
        raise Refused(line, f"'{place}' is no place of an entry")
    if not ACTOR(who):
        raise Refused(line, f"'{who}' is no actor")
    forms = [it for it in TABLES[cell.split()[0]].get(call[0] if call else "", []) if fits(call, it[0])]
    if not forms:
        raise Refused(line, f"'{' '.join(call)[:60]}' is no call on a cell of this kind")
    if not any(fits(reply, it) for _, replies in forms for it in replies):
        raise Refused(line, f"'{' '.join(reply)[:60]}' is no reply to this call")
    return Entry(cell, int(place), who, call, reply, line)


def read_answer(text, line):
    number, _, answer = text.partition(" ")
    if not PLACEHOLDERS["N"](number) or not answer:
        raise Refused(line, "an answer has the form 'LINE ANSWER'")
    return int(number), answer


def read_section_line(output, section, text, line):
    if section is None:
        raise Refused(line, "no section has begun: an output begins with 'guest 1' or 'owner'")
    if section.startswith("guest"):
        output.answers[section].append(read_answer(text, line))
        return
    entry = read_entry(section, text, line)
    if entry.place != len(output.cells[section]):
        raise Refused(line, f"place {entry.place} of {section}, where {len(output.cells[section])} is next")
    output.cells[section].append(entry)


def begin_section(output, name, line):
    sections = output.answers if name.startswith("guest") else output.cells
    if name in sections:
        raise Refused(line, f"'{name}' stands twice")
    sections[name] = []
    return name


def check_whole(output, has_ended, last):
    if not has_ended:
        raise Refused(last, "the output has no line 'end': it was cut off")
    if not output.cells:
        raise Refused(0, "there are no histories: an output of 'alone' or 'admin' has none; give one of 'step'")
    if "owner" not in output.cells:
        raise Refused(0, "there is no section 'owner'")
    members = [it for it in output.cells if it.startswith("member")]
    if len(members) != len(output.answers):
        raise Refused(0, f"{len(output.answers)} guests and {len(members)} members: each guest has one")


def read_output(text):
    """The output that a text is; Refused where it is none."""
    if text.startswith("bad line "):
        raise Refused(1, f"this is the refusal of a script ('{text.splitlines()[0]}'), and no run")
    if text.startswith("done "):
        raise Refused(1, "this is an output of 'admin'; give one of 'step'")
    output, section, has_ended, line = Output(), None, False, 0
    for line, words in enumerate(text.splitlines(), 1):
        if has_ended:
            raise Refused(line, "something stands behind 'end'")
        if words == "end":
            has_ended = True
        elif SECTION(words):
            section = begin_section(output, words, line)
        elif words.startswith("left "):
            output.left.append(words)
        else:
            read_section_line(output, section, words, line)
    if not line:
        raise Refused(0, "the input is empty")
    check_whole(output, has_ended, line)
    return output
