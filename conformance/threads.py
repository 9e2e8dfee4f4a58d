#!/usr/bin/env python3
"""The cases of `run` that look at each output by itself, since its histories come in another order each time.

    conformance/threads.py PROGRAM [NAME..]

Scripts of several guests, workers and the host are run some times each, also on one processor. Each output must be that of a
legal journal, as far as it shows it (tools/journal_checks.py): places count from 0, each reply is the answer to its call over
what stands before it, the board's entries stand first and last, each posted command is fetched, completed and taken. Each guest
must have the answers that it has under `alone`. Guests whose answers don't depend on the order of calls must have those of
`step`. That the checks do tell is looked at with outputs that are wrong in one place. The last line is 'N passed, M failed'.
"""
import os
import random
import subprocess
import sys

import reference
from telling import tell

TOP = os.path.dirname(os.path.dirname(os.path.abspath(__file__)))
SECONDS = 60
sys.path.insert(0, os.path.join(TOP, "tools"))
from board_output import Refused, read_output  # noqa: E402
from journal_checks import by_themselves, check_journal  # noqa: E402
from lone_comparison import Different, GroupRun  # noqa: E402
from random_scripts import crowded_script  # noqa: E402

EXAMPLES = ("two_guests", "disabled_in_an_access", "hostile_guest", "hang_doorbell_too_early")
RUNS, DRAWN = 5, 6

# Four guests on one queue of four entries, which workers serve too; one guest gives up where the queue is full.
CROWD = "board 1 4 2\n" + "".join(f"guest {g} block 2 8\n" for g in range(1, 5)) + "".join(
    f"g{g} out 18 0{1 + at % 3}\ng{g} in 18 1{' once' if g == 4 else ''}\ng{g} in 12 2\nw{g % 2} serve 0\n" for at in range(12) for g in range(1, 5))

# Two guests, of which the first is disabled and the group reset at some moment.
ENDED = "board 2 4 1\nguest 1 block 1 8\nguest 2 net 1 020000000002\n" + "".join(
    f"g1 out 14 0{at % 2}00\ng1 in 14 2\ng2 in 14 2\ng2 out 18 0{at % 4}\nw0 serve 1\nw0 serve 0\n" for at in range(20)) + "host disable 1\nhost reset\n"

ONE = "board 1 4 1\nguest 1 block 1 8\nguest 2 block 1 8\ng1 in 12 2\ng2 in 18 1\nw0 serve 0\ng1 out 16 0000\n"
CHANGES = {
    "another_reply": ("-> data 1000", "-> data 1100", "'1 g1 act common-read 12 2 -> data 1100'"),
    "another_completion": ("complete 4 00000000000000001000", "complete 4 00000000000000001100", "completed in another way"),
    "an_entry_less": ("\n2 g1 notify 0 -> ok\n3 board step", "\n2 board step", ""),
    "an_entry_of_the_board_between_others": ("17 g1 pop", "17 board pop", ""),
    "a_command_that_another_completes": ("18 g1 complete", "18 w0 complete", "completes what another fetched"),
    "a_command_that_is_not_taken": ("\n19 g1 take 4 -> ready 2", "", ""),
    "a_command_that_another_carries_out": ("1 g1 act", "1 w0 act", "not carried out by the same actor"),
    "another_access_than_was_judged": ("1 g1 act common-read 12 2 -> data 1000", "1 g1 act common-read 14 2 -> data 0000", "not carried out"),
    "no_drain": ("\n2 board step 0 -> idle\nend", "\nend", "'end' is printed"),
    "a_place_left_out": ("\n5 g1 judge", "\n6 g1 judge", "place 6 of owner, where 5 is next"),
    "another_answer": ("4 1000", "4 1100", "gave 1100, and alone 1000"),
}


def example(name):
    with open(os.path.join(TOP, "examples", f"{name}.script"), encoding="ascii") as file:
        return file.read()


def on_one_processor():
    os.sched_setaffinity(0, {min(os.sched_getaffinity(0))})


def output_of(program, command, text, begin=None):
    done = subprocess.run([program, command], input=text.encode("ascii"), stdout=subprocess.PIPE, stderr=subprocess.PIPE, timeout=SECONDS,
                          preexec_fn=begin, check=False)
    if done.returncode or done.stderr:
        raise Different(f"{command}: status {done.returncode}, standard error {done.stderr[:100]!r}")
    return done.stdout.decode("ascii")


def check(text, printed, alone):
    """Different or Refused where the output isn't as it must be under any schedule; what it gives as one that was read."""
    output = read_output(printed)
    check_journal(text, printed, output)
    run = GroupRun(text, output)
    for guest in run.guests:
        lone, own, end = run.lone_script(guest)
        run.compare(guest, own, end, alone(lone))
    return output


def runs_fault(program, text, begin=None, runs=RUNS):
    try:
        other = read_output(output_of(program, "step", text))
        for _ in range(runs):
            output = check(text, output_of(program, "run", text, begin), lambda lone: output_of(program, "alone", lone))
            for guest in by_themselves(text):
                if output.answers[f"guest {guest}"] != other.answers[f"guest {guest}"]:
                    return f"guest {guest} has other answers than under step"
    except (Different, Refused) as fault:
        return str(fault)
    return None


def telling_fault(change):
    old, new, told = change or ("", "", "")
    printed = reference.answer("step", ONE)
    if old not in printed:
        return f"the output has no {old!r}"
    try:
        check(ONE, printed.replace(old, new, 1), lambda lone: reference.answer("alone", lone))
    except (Different, Refused) as fault:
        return None if change and told in str(fault) else f"told {fault}"
    return "nothing is told" if change else None


def cases(program):
    yield "threads_tells_nothing_of_what_is_right", telling_fault(None)
    for name, change in CHANGES.items():
        yield f"threads_tells_of_{name}", telling_fault(change)
    for name in EXAMPLES:
        yield f"threads_example_{name}", runs_fault(program, example(name))
    for name, text in (("a_crowd_at_one_queue", CROWD), ("ends_at_some_moment", ENDED)):
        yield f"threads_{name}", runs_fault(program, text)
        yield f"threads_{name}_on_one_processor", runs_fault(program, text, on_one_processor)
    for seed in range(DRAWN):
        yield f"threads_drawn_{seed}", runs_fault(program, crowded_script(random.Random(f"threads {seed}")), on_one_processor if seed % 3 == 2 else None, 2)


def faults(program, names=()):
    """Each case with what is wrong, or None. With names, only cases whose name begins with one of them."""
    if names and not any("threads".startswith(it[:7]) for it in names):
        return []
    return [(name, wrong) for name, wrong in cases(program) if name.startswith(tuple(names) or "")]


if __name__ == "__main__":
    sys.exit(tell(faults(os.path.abspath(sys.argv[1]), sys.argv[2:])))
