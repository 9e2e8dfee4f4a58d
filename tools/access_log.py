"""Reads a log of accesses: what a driver did at its device, one access a line (docs/formats.md, 'Logs of accesses')."""
import re

PAGE, LONGEST_PIECE = 4096, 512
NUMBER = re.compile(r"0x[0-9a-fA-F]+|0|[1-9][0-9]*").fullmatch
HEX = re.compile(r"(?:[0-9a-fA-F]{2})+").fullmatch


class Refused(Exception):
    """A line that is no line of a log, and what is wrong with it; where several logs are at hand, the guest of this one."""

    guest = None

    def __init__(self, line, cause):
        super().__init__(f"line {line}: {cause}")


class Step:
    """One line of a log: what was done, with which values, and the bytes that the device gave, where the log has them."""

    def __init__(self, line, what, values, given=None):
        self.line, self.what, self.values, self.given = line, what, values, given


class Log:
    """The device, the steps, and the remarks that stand before each step."""

    def __init__(self, device):
        self.device, self.steps, self.remarks = device, [], {}

    def is_block(self):
        return self.device[0] == "block"

    def memory(self):
        return PAGE * self.device[1]


def number(word, line, least, most, name):
    if not NUMBER(word):
        raise Refused(line, f"'{word}' is no number: {name} is decimal, or hexadecimal with 0x")
    value = int(word, 0)
    if not least <= value <= most:
        raise Refused(line, f"{name} {word} isn't from {least} to {most}")
    return value


def data(word, line, lengths, name):
    """Bytes in the order of their addresses. `lengths` has every length that is allowed."""
    if not HEX(word):
        raise Refused(line, f"'{word[:40]}' is no HEX: {name} are an even number of hex digits, in the order of the addresses")
    value = bytes.fromhex(word)
    if len(value) not in lengths:
        allowed = f"{lengths[0]} to {lengths[-1]}" if len(lengths) > 3 else " or ".join(map(str, lengths))
        raise Refused(line, f"{name} are {len(value)}, and not {allowed}")
    return value


def read_device(words, line):
    """The device of the log's first line: its kind, pages of memory, and what else a 'guest' line has."""
    kind = words[1] if len(words) > 1 else ""
    if kind == "block" and (len(words) == 4 or (len(words) == 5 and words[4] == "ro")):
        pages, sectors = number(words[2], line, 1, 64, "the number of pages"), number(words[3], line, 0, 4096, "the number of sectors")
        return ("block", pages, sectors, *words[4:])
    if kind == "net" and len(words) == 4:
        return ("net", number(words[2], line, 1, 64, "the number of pages"), data(words[3], line, [6], "the bytes of the MAC").hex())
    raise Refused(line, "a device is 'device block PAGES SECTORS', the same with 'ro', or 'device net PAGES MAC'")


def register_size(word, line):
    if word not in ("1", "2", "4"):
        raise Refused(line, f"a length of '{word}': an access has 1, 2 or 4 bytes")
    return int(word)


def inside(log, line, address, size):
    if address + size > log.memory():
        raise Refused(line, f"bytes {address} to {address + size - 1} aren't in the memory of {log.memory()} bytes; 'device' says how many pages it has")
    return address, size


def switch(name):
    def read(log, words, line):
        if words[1] not in ("on", "off"):
            raise Refused(line, f"'{name} {words[1]}': it is turned 'on' or 'off'")
        return (words[1],)
    return read


def read_memory(log, words, line):
    return inside(log, line, number(words[1], line, 0, 1 << 20, "address"), number(words[2], line, 1, log.memory(), "length"))


def write_memory(log, words, line):
    address, value = number(words[1], line, 0, 1 << 20, "address"), data(words[2], line, range(1, log.memory() + 1), "the bytes")
    inside(log, line, address, len(value))
    return address, value


def frame(log, words, line):
    if log.is_block():
        raise Refused(line, "a frame for a block device")
    return (data(words[1], line, range(14, 1515), "the bytes of a frame"),)


# word: (numbers of words, whether '= HEX' may follow, what reads the values)
FORMS = {
    "r": ((3,), True, lambda log, words, line: (number(words[1], line, 0, 255, "offset"), register_size(words[2], line))),
    "w": ((3,), False, lambda log, words, line: (number(words[1], line, 0, 255, "offset"), data(words[2], line, [1, 2, 4], "the bytes"))),
    "mr": ((3,), True, read_memory),
    "mw": ((3,), False, write_memory),
    "cfg": ((3,), True, lambda log, words, line: (number(words[1], line, 0, 255, "offset"), register_size(words[2], line))),
    "irqs": ((1,), True, lambda log, words, line: ()),
    "poll": ((2, 3), False, lambda log, words, line: (number(words[1], line, 0, 65535, "queue"), number((words + ["1"])[2], line, 1, 65536, "count"))),
    "msix": ((2,), False, switch("msix")),
    "io": ((2,), False, switch("io")),
    "frame": ((2,), False, frame),
    "flr": ((1,), False, lambda log, words, line: ()),
}
SAMPLES = {
    "r": "r OFFSET LENGTH [= HEX]", "w": "w OFFSET HEX", "mr": "mr ADDRESS LENGTH [= HEX]", "mw": "mw ADDRESS HEX",
    "cfg": "cfg OFFSET LENGTH [= HEX]", "irqs": "irqs [= HEX]", "poll": "poll QUEUE [COUNT]", "msix": "msix on", "io": "io off",
    "frame": "frame HEX", "flr": "flr",
}


def read_step(log, words, line):
    if words[0] not in FORMS:
        raise Refused(line, f"'{words[0][:40]}' is no access: a line begins with one of {', '.join(FORMS)}")
    counts, may_give, read = FORMS[words[0]]
    given = None
    if "=" in words:
        if not may_give or words.index("=") != len(words) - 2:
            raise Refused(line, f"'=' stands where the form '{SAMPLES[words[0]]}' has none")
        given, words = words[-1], words[:-2]
    if len(words) not in counts:
        raise Refused(line, f"{len(words)} words, and the form is '{SAMPLES[words[0]]}'")
    values = read(log, words, line)
    if given is not None:
        given = data(given, line, [1 if words[0] == "irqs" else values[1]], "the bytes that the device gave")
    return Step(line, words[0], values, given)


def read_log(text):
    """The log that a text is, or Refused at its first line with a fault. Remarks behind the device are kept where they stand."""
    log, remarks = None, []
    for line, written in enumerate(text.splitlines(), 1):
        if not written.strip() or written.startswith("#"):
            remarks.append(written)
            continue
        words = written.split()
        if log is None:
            if words[0] != "device":
                raise Refused(line, "the first line is the device: 'device block PAGES SECTORS' or 'device net PAGES MAC'")
            log = Log(read_device(words, line))
        elif words[0] == "device":
            raise Refused(line, "a second device: a log is of one")
        else:
            log.steps.append(read_step(log, words, line))
            log.remarks[line] = remarks
        remarks = []
    if log is None:
        raise Refused(1, "the log has no line 'device'")
    return log
