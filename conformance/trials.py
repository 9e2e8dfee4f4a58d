#!/usr/bin/env python3
"""The cases of tools/hostile, tools/fuzz and tools/threads: the built program passes a short trial, and what is wrong is told.

    conformance/trials.py PROGRAM [NAME..]

Programs that are wrong are stand-ins of a line of shell; outputs that are wrong are those of conformance/reference.py with
one change. The last line is 'N passed, M failed'.
"""
import os
import re
import subprocess
import sys
import tempfile

import reference

TOP = os.path.dirname(os.path.dirname(os.path.abspath(__file__)))
TOOLS = os.path.join(TOP, "tools")
QUERY = os.path.join("examples", "list_query.admin")
CROWD = os.path.join("examples", "side_by_side.script")
TWO_GUESTS = os.path.join("examples", "hang_doorbell_too_early.script")
SECONDS = 120
sys.path.insert(0, TOOLS)
from board_output import read_output  # noqa: E402
from lone_comparison import Different, GroupRun  # noqa: E402
from telling import tell

# Guest 1 reads twice; the group is reset when its second read is carried out and not completed; the third comes afterwards.
RESET = "board 1 4 0\nguest 1 block 1 8\nguest 2 block 1 8\ng1 in 12 2\ng1 in 0 4\ng1 in 18 1\ng2 peek 0 2\nhost reset\ngo g1 12 host 9\n"
CHANGES = {
    "another_answer": ("4 1000", "4 1100", "gave 1100, and alone 1000"),
    "an_answer_in_doubt_that_is_not_all_ones": ("5 ffffffff", "5 00000000", "gave 00000000, and alone 400a0038"),
    "an_answer_behind_the_end_that_is_not_all_ones": ("6 ff", "6 00", "came behind the member's end and gave 00"),
    "another_event": ("act common-read 12 2 -> data 1000", "act common-read 14 2 -> data 1000", "has no event, and a later line has one"),
    "an_event_of_another_actor": ("g2 memread 0 2", "w0 memread 0 2", "'peek 0 2' has no event"),
    "an_answer_less": ("\n6 ff\n", "\n", "the numbers of its answers"),
}


def compared(text, output):
    """How many guests have a line in doubt; Different where one doesn't see what it would see alone."""
    run, doubts = GroupRun(text, read_output(output)), 0
    for guest in run.guests:
        lone, own, end = run.lone_script(guest)
        doubts += run.compare(guest, own, end, reference.answer("alone", lone))
    return doubts


def comparison_fault(change):
    output = reference.answer("step", RESET)
    if change is None:
        return None if compared(RESET, output) == 1 else "no line is in doubt"
    old, new, told = change
    try:
        compared(RESET, output.replace(old, new, 1))
    except Different as fault:
        return None if told in str(fault) else f"told {fault}"
    return "nothing is told"


def tool(name, *words):
    done = subprocess.run([sys.executable, os.path.join(TOOLS, name), *words], cwd=TOP, stdout=subprocess.PIPE, stderr=subprocess.PIPE, timeout=SECONDS)
    return done.returncode, done.stdout.decode()


def passing_fault(program, name, *words):
    status, output = tool(name, "--program", program, *words)
    return None if status == 0 and output.endswith(", 0 differences\n") else f"status {status}, {output[-300:]!r}"


def tool_over(line, name, *words):
    """The status and the output of a tool where the program is this line of shell."""
    with tempfile.TemporaryDirectory() as folder:
        program = os.path.join(folder, "program")
        with open(program, "w", encoding="ascii") as file:
            file.write(f"#!/bin/sh\n{line}\n")
        os.chmod(program, 0o755)
        return tool(name, "--program", program, *words)


def telling_fault(line, told, name, *words):
    """What is wrong where the program is this line of shell, of which the tool has to tell something."""
    status, output = tool_over(line, name, *words)
    return None if status == 1 and re.search(told, output) and not output.endswith(" 0 differences\n") else f"status {status}, {output[-300:]!r}"


def cases(program):
    yield "trial_compares_a_group_with_lone_devices", comparison_fault(None)
    for name, change in CHANGES.items():
        yield f"trial_tells_of_{name}", comparison_fault(change)
    few = ("--first", "40", "--more", "5", "admin", QUERY)
    yield "trial_passes_without_memory", passing_fault(program, "hostile", "memory", *few)
    yield "trial_passes_step_without_memory", passing_fault(program, "hostile", "memory", "step", TWO_GUESTS)
    yield "trial_passes_run_without_memory", passing_fault(program, "hostile", "memory", "run", TWO_GUESTS)
    yield "trial_passes_with_failing_streams", passing_fault(program, "hostile", "streams", *few)
    yield "trial_passes_random_texts", passing_fault(program, "fuzz", "--count", "60")
    yield "trial_tells_of_memory_that_is_not_missed", telling_fault("read line; echo done", "memory, first 1, every 0: status", "hostile", "memory", *few)
    yield "trial_tells_of_a_read_that_is_not_missed", telling_fault("read line; echo done", "read, .*: status 0", "hostile", "streams", *few)
    yield "trial_tells_of_a_status", telling_fault("exit 3", "seed 1, case 0, [a-z]+: [a-z]+: status 3", "fuzz", "--count", "3")
    yield "trial_passes_threads", passing_fault(program, "threads", "--count", "2")
    yield "trial_passes_threads_on_one_processor", passing_fault(program, "threads", "--from", "2", "--count", "2", "--one-processor")
    yield "trial_passes_without_threads", passing_fault(program, "hostile", "threads", "--first", "20", "--more", "4", "run", CROWD)
    in_turn = f"case $1 in run) '{program}' step;; *) '{program}' $1;; esac"
    yield "trial_passes_the_order_of_step", (None if tool_over(in_turn, "threads", "--count", "1")[0] == 0 else "the order of step is refused")
    other = f"case $1 in run) '{program}' run | sed 's/ g1 complete / g2 complete /';; *) '{program}' $1;; esac"
    yield "trial_tells_of_another_who_completes", telling_fault(other, "completes what another fetched", "threads", "--count", "3")
    swapped = f"case $1 in step) '{program}' step | sed 's/ -> served 1 / -> served 2 /';; *) '{program}' $1;; esac"
    yield "trial_tells_of_another_reply", telling_fault(swapped, "and the reference '", "fuzz", "--count", "12", "--share", "1")


def faults(program, names=()):
    """Each case with what is wrong, or None. With names, only cases whose name begins with one of them."""
    if names and not any("trial".startswith(it[:5]) for it in names):
        return []
    return [(name, wrong) for name, wrong in cases(program) if name.startswith(tuple(names) or "")]


if __name__ == "__main__":
    sys.exit(tell(faults(os.path.abspath(sys.argv[1]), sys.argv[2:])))
