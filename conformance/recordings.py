#!/usr/bin/env python3
"""The cases of tools/record: the scripts that it makes of logs, what it refuses, and where boards and devices differ.

    conformance/recordings.py [NAME..]

The boards of examples/recorded are made of its logs anew and must be the same. Each guest's answers there, and those of a
lone guest, must be the device's that the log has, but for the lines told below. conformance/reference.py makes the outputs.
The last line is 'N passed, M failed'.
"""
import os
import subprocess
import sys
import tempfile

import reference
from telling import tell

TOP = os.path.dirname(os.path.dirname(os.path.abspath(__file__)))
TOOL = os.path.join(TOP, "tools", "record")
RECORDED = os.path.join(TOP, "examples", "recorded")
SECONDS = 120

# Where the recorded devices had other features and another geometry than the board's: offset and length of the reads.
LINUX = [(32, 1), (36, 1), (38, 1), (39, 1), (0, 4), (0, 4), (0, 4)]
FIRMWARE = [(32, 1), (36, 1), (38, 1), (39, 1), (0, 4)]
READS = {"linux_block": LINUX, "firmware_block": FIRMWARE}

# Boards: words, logs, and the answers that differ although the device is the same: the name of a disk has its guest's number.
BOARDS = {
    "linux_and_firmware": ("--queues 1 --size 8 --workers 2 --turns 3", ["linux_block", "firmware_block", "firmware_block"], []),
    "four_drivers": ("--queues 2 --size 16 --workers 3 --turns 3", ["linux_block", "firmware_block", "linux_block", "firmware_block"], ["g3 peek 45056 20"]),
}


def recorded(*words, folder=RECORDED):
    done = subprocess.run([sys.executable, TOOL, *words], cwd=folder, stdout=subprocess.PIPE, stderr=subprocess.PIPE, timeout=SECONDS)
    return done.returncode, done.stdout.decode(), done.stderr.decode()


def board_fault(name):
    words, logs, _ = BOARDS[name]
    status, script, error = recorded(*words.split(), *(f"{it}.accesses" for it in logs))
    with open(os.path.join(RECORDED, f"{name}.script"), encoding="ascii") as file:
        stands = file.read()
    return error or None if status else None if script == stands else "examples/recorded has another script"


def differences(command, words, folder=RECORDED):
    """What --compare tells of an output of the script that these words make, and its last line."""
    _, script, _ = recorded(*words, folder=folder)
    with tempfile.NamedTemporaryFile("w") as output:
        output.write(reference.answer(command, script))
        output.flush()
        _, told, error = recorded("--compare", output.name, *words, folder=folder)
    lines = [*told.splitlines(), error]
    return [it.split(": ")[1] for it in lines[:-2]], lines[-2]


def expected_of(logs, others):
    reads = [f"g{guest} in {offset} {size}" for guest, log in enumerate(logs, 1) for offset, size in READS[log]]
    return sorted(reads + others)


def compare_fault(command, words, logs, others):
    differ, last = differences(command, [*words, *(f"{it}.accesses" for it in logs)])
    right, _, all_of_them, *_ = last.split()
    if sorted(differ) != expected_of(logs, others) or int(all_of_them) - int(right) != len(differ):
        return f"these differ: {differ}; {last}"
    return None


def own_driver_fault(command):
    differ, last = differences(command, ["own_driver.accesses"], os.path.join(TOP, "examples"))
    return None if (differ, last) == (["g1 in 0 4"], "8 of 9 answers are the device's") else f"{differ}, {last}"


# ---- small logs

def made_of(text, *words):
    with tempfile.TemporaryDirectory() as folder:
        with open(os.path.join(folder, "log"), "w", encoding="ascii") as file:
            file.write(text)
        return recorded(*words, "log", folder=folder)


def script_fault(text, words, lines):
    status, script, error = made_of(text, *words)
    found = [it for it in script.splitlines() if it and not it.startswith("#")]
    return None if (status, error, found) == (0, "", lines) else f"status {status}, {error!r}, {found}"


BLOCK, NET = "device block 1 8\n", "device net 1 020000000002\n"
FRAME = "ff" * 14
SCRIPTS = {
    "each_access": ("device block 1 8 ro\nr 0x12 1\nw 16 0000\nmw 0 00ff\nmr 0 2\ncfg 0 4\nirqs\npoll 0\nmsix on\nio off\n", [], [
        "board 1 4 0", "guest 1 block 1 8 ro", "g1 in 18 1", "g1 out 16 0000", "g1 mem 0 00ff", "g1 peek 0 2", "g1 cfg 0 4", "g1 irqs",
        "g1 poll 0", "g1 msix on", "g1 io off"]),
    "long_memory_in_pieces": (f"{BLOCK}mw 1 {'ab' * 600}\nmr 0 1025\n", [], [
        "board 1 4 0", "guest 1 block 1 8", f"g1 mem 1 {'ab' * 512}", f"g1 mem 513 {'ab' * 88}", "g1 peek 0 512", "g1 peek 512 512", "g1 peek 1024 1"]),
    "several_polls": (f"{BLOCK}poll 0 3\n", [], ["board 1 4 0", "guest 1 block 1 8", "g1 poll 0", "g1 poll 0", "g1 poll 0"]),
    "another_guest": (f"{NET}frame {FRAME}\nflr\nr 18 1\n", ["--guest", "3"], [
        "guest 3 net 1 020000000002", f"host frame 3 {FRAME}", "host flr 3", "g3 in 18 1"]),
    "a_frame_at_its_moment": (f"{NET}w 18 07\nio off\nw 18 00\nio on\nw 16 0000\nframe {FRAME}\nr 18 1\n", [], [
        "board 1 4 0", "guest 1 net 1 020000000002", "g1 out 18 07", "g1 io off", "g1 out 18 00", "g1 io on", "g1 out 16 0000",
        f"host frame 1 {FRAME}", "g1 in 18 1", "go g1 8 host 1 g1 7"]),
}

REFUSED = {
    "empty": ("", "line 1: the log has no line 'device'"),
    "no_device": ("r 0 4\n", "line 1: the first line is the device"),
    "another_device": (BLOCK + NET, "line 2: a second device"),
    "a_device_of_another_kind": ("device gpu 1 1\n", "line 1: a device is"),
    "pages": ("device block 65 8\n", "line 1: the number of pages 65 isn't from 1 to 64"),
    "a_mac_of_5_bytes": ("device net 1 0200000000\n", "line 1: the bytes of the MAC are 5, and not 6"),
    "an_unknown_word": (f"{BLOCK}# a remark\nread 0 4\n", "line 3: 'read' is no access"),
    "a_length_of_3": (f"{BLOCK}r 0 3\n", "line 2: a length of '3'"),
    "an_offset": (f"{BLOCK}r 256 1\n", "line 2: offset 256 isn't from 0 to 255"),
    "no_number": (f"{BLOCK}r 08 1\n", "line 2: '08' is no number"),
    "a_number_instead_of_bytes": (f"{BLOCK}w 18 0x3\n", "line 2: '0x3' is no HEX"),
    "three_bytes": (f"{BLOCK}w 8 010000\n", "line 2: the bytes are 3, and not 1 or 2 or 4"),
    "too_few_words": (f"{BLOCK}r 0\n", "line 2: 2 words, and the form is 'r OFFSET LENGTH [= HEX]'"),
    "an_answer_of_another_length": (f"{BLOCK}r 0 4 = 00\n", "line 2: the bytes that the device gave are 1, and not 4"),
    "an_answer_to_a_write": (f"{BLOCK}w 18 03 = 03\n", "line 2: '=' stands where"),
    "outside_the_memory": (f"{BLOCK}mw 4095 0000\n", "line 2: bytes 4095 to 4096 aren't in the memory of 4096 bytes"),
    "a_frame_for_a_disk": (f"{BLOCK}frame {FRAME}\n", "line 2: a frame for a block device"),
    "neither_on_nor_off": (f"{BLOCK}msix yes\n", "line 2: 'msix yes'"),
}


def refusal_fault(text, cause):
    status, script, error = made_of(text)
    return None if status == 1 and not script and error.startswith(f"record: log: {cause}") and error.count("\n") == 1 else f"status {status}, {error!r}"


def others():
    """Refusals that aren't of one log's text."""
    mixed = made_of(f"{NET}frame {FRAME}\n", "--workers", "1")
    yield "record_refuses_a_frame_beside_workers", None if mixed[0] == 1 and "line 2: 'frame' comes at its moment only where" in mixed[2] else str(mixed)
    with tempfile.NamedTemporaryFile("w") as output:
        output.write("guest 1\n3 ok\nend\n")
        output.flush()
        other = recorded("--compare", output.name, "own_driver.accesses", folder=os.path.join(TOP, "examples"))
    yield "record_refuses_another_output", None if other[0] == 1 and "is no output of the script that these words make" in other[2] else str(other)
    turns = recorded("--turns", "0", "linux_block.accesses")
    yield "record_refuses_no_turns", None if turns[0] == 2 and "'0' is no number from 1 to 1000" in turns[2] else str(turns)
    missing = recorded("there_is_none")
    yield "record_without_the_file", None if missing[0] == 4 and missing[2] == "record: there_is_none: No such file or directory\n" else str(missing)
    sized = made_of(f"{BLOCK}r 12 2 = 0001\n")
    yield "record_tells_of_another_queue_size", None if sized[0] == 0 and "line 2: the device's queue had 256 entries" in sized[2] else str(sized)


def cases():
    for name, (words, logs, differ) in BOARDS.items():
        yield f"record_makes_{name}", board_fault(name)
        yield f"record_compares_{name}", compare_fault("step", words.split(), logs, differ)
    for name in READS:
        for command in ("alone", "step"):
            yield f"record_compares_{name}_under_{command}", compare_fault(command, [], [name], [])
    for command in ("alone", "step"):
        yield f"record_compares_own_driver_under_{command}", own_driver_fault(command)
    for name, (text, words, lines) in SCRIPTS.items():
        yield f"record_makes_{name}", script_fault(text, words, lines)
    for name, (text, cause) in REFUSED.items():
        yield f"record_refuses_{name}", refusal_fault(text, cause)
    yield from others()


def faults(names=()):
    """Each case with what is wrong, or None. With names, only cases whose name begins with one of them."""
    if names and not any("record".startswith(it[:6]) for it in names):
        return []
    return [(name, wrong) for name, wrong in cases() if name.startswith(tuple(names) or "")]


if __name__ == "__main__":
    sys.exit(tell(faults(sys.argv[1:])))
