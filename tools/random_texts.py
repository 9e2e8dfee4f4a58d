"""Random administration texts, texts that are nearly right, and bytes of any kind."""

EDGES = ("0", "1", "2", "9", "00", "01", "-", "+1", "16", "17", "255", "256", "257", "512", "513", "4095", "4096", "65535",
         "65536", "1000001", "4294967296", "18446744073709551615", "18446744073709551616", "@0", "@9", "once", "g1", "g17",
         "w0", "host", "00ff", "0f0", "ABCDEF", "")
WORDS = EDGES + ("board", "guest", "block", "net", "ro", "in", "out", "mem", "peek", "msix", "on", "off", "io", "cfg", "irqs",
                 "poll", "serve", "frame", "flr", "disable", "reset", "go", "cmd", "vfs", "g2", "8", "4", "020000000002")
PRINTABLE = "".join(chr(it) for it in range(32, 127))


def le(number, size):
    return (number % 256 ** size).to_bytes(size, "little")


def random_command(rng):
    """A command, whole or cut, or with bytes behind it."""
    opcode = rng.choice((0, 1, 1, 2, 2, 3, 3, 4, 5, 5, 6, 7, 256, 65535))
    member = rng.choice((0, 1, 1, 1, 2, 2, 3, 16, 17, 2 ** 32 + 1, 2 ** 64 - 1))
    group = 1 if rng.random() < 0.93 else rng.choice((0, 2, 257))
    data = le(opcode, 2) + le(group, 2) + rng.choice((bytes(12), rng.randbytes(12))) + le(member, 8)
    if opcode == 1:
        data += le(rng.choice((0, 0x7F, 0x7F, 0x7F, 0x77, 0x80, 1 << 63, rng.randrange(128))), 8)
    elif opcode in (2, 3, 4, 5):
        data += le(rng.choice((0, 4, 8, 9, 12, 14, 16, 18, 18, 19, 20, 24, 32, 255)), 1)
    if opcode in (2, 4):
        data += bytes(7) + rng.choice((b"", b"\0", b"\1", b"\3", b"\1\0", b"\1\0\0\0", rng.randbytes(8)))
    chance = rng.random()
    if chance < 0.15:
        return data[:rng.randrange(len(data) + 1)]
    return data + rng.randbytes(rng.choice((1, 8, 100))) if chance < 0.2 else data


def random_admin(rng):
    lines, use = [], "cmd 8 " + (le(1, 2) + le(1, 2) + bytes(20) + le(0x7F, 8)).hex()
    if rng.random() < 0.9:
        lines += [f"vfs {rng.choice((0, 1, 2, 3, 3, 16))}", use][:rng.choice((1, 2, 2, 2))]
    for _ in range(rng.choice((1, 3, 8, 20, 40))):
        writable = rng.choice((0, 1, 3, 7, 8, 9, 10, 12, 16, 72, 256))
        lines.append(f"cmd {writable} {random_command(rng).hex() or '-'}")
    if rng.random() < 0.2:
        lines.insert(rng.randrange(2, len(lines) + 1) if len(lines) > 2 else len(lines), "reset")
    return "\n".join(lines) + "\n"


def changed_words(rng, line):
    words = line.split(" ")
    at, kind = rng.randrange(len(words)), rng.randrange(4)
    if kind == 0:
        words[at] = rng.choice(EDGES)
    elif kind == 1:
        words.insert(at, rng.choice(WORDS))
    elif kind == 2:
        del words[at]
    else:
        words.append(words[at])
    return " ".join(words)


def changed(rng, line):
    """A line with one change."""
    if rng.random() < 0.6:
        return changed_words(rng, line)
    at, kind = rng.randrange(len(line) + 1), rng.randrange(3)
    byte = rng.choice(PRINTABLE) if rng.random() < 0.9 else chr(rng.choice((0, 9, 13, 127)))
    return line[:at] + (byte if kind < 2 else "") + line[at + (kind > 0):]


def nearly_right(rng, text):
    """The text with one line changed, and the number of the line at which a fault must then be; None where it may be another."""
    lines = text.split("\n")
    at = rng.randrange(max(len(lines) - 1, 1))
    is_head = lines[at].split(" ")[0] in ("board", "guest", "vfs")
    lines[at] = changed(rng, lines[at])
    return "\n".join(lines), None if is_head else at + 1


def random_bytes(rng):
    if rng.random() < 0.4:
        return rng.randbytes(rng.choice((0, 1, 2, 10, 100, 1000, 5000)))
    start = rng.choice(("", "", "board 1 4 1\n", "board 1 4 1\nguest 1 block 1 8\n", "vfs 2\n"))
    lines = [" ".join(rng.choice(WORDS) for _ in range(rng.choice((1, 2, 3, 4, 5)))) for _ in range(rng.randrange(6))]
    return (start + "\n".join(lines)).encode("ascii")
