#!/usr/bin/env python3
"""The launcher's own cases, with stand-ins for the program and for the toolchain.

    conformance/launcher.py

Each case runs a copy of ./group_board in a folder of its own, once where a stand-in for the proved program stands
built, and once where there is none and a stand-in for the command rt makes the quick build. So nothing is proved or
built here. The last line is 'N passed, M failed'.
"""
import os
import pty
import shutil
import subprocess
import sys
import tempfile
import time
from telling import tell

TOP = os.path.dirname(os.path.dirname(os.path.abspath(__file__)))
SECONDS = 60

# Answers as the program does, as far as the cases ask: a text that begins with 'bad CAUSE' has a fault in line 2,
# and every other is its own output.
PROGRAM = """#!/usr/bin/env bash
case "$#:${1-}" in 1:step | 1:run | 1:admin | 1:alone) ;; *) echo "group_board: usage" >&2; exit 2 ;; esac
text=$(cat; echo .); text=${text%.}
[ "${#text}" -gt 1048576 ] && { echo "group_board: input too long" >&2; exit 7; }
case "$text" in bad*) set -- $text; echo "bad line 2: $2"; exit 6 ;; esac
printf %s "$text"
"""

# The toolchain: the quick build takes only what stands in its input at once, and building makes the program.
TOOLCHAIN = """#!/usr/bin/env bash
case "$1" in
  try)
    shift 2
    [ -f /dev/stdin ] || { echo "the input is no file"; exit 9; }
    bash "$STAND_IN" "$@"
    status=$?
    echo "checked: ended status=$status" >&2
    echo "run=ended status=$status runners=1 proved=no" >&2
    exit "$status"
    ;;
  run) mkdir -p out && cp "$STAND_IN" out/group_board && chmod +x out/group_board && exec out/group_board admin ;;
esac
"""

QUICK = "which is NOT proved"


class Place:
    """A folder with a copy of the launcher, with the proved program in it or not."""

    def __init__(self, folder, is_built):
        self.folder = folder
        self.is_built = is_built
        crate = os.path.join(folder, "crates", "group_board")
        os.makedirs(os.path.join(crate, "out"))
        shutil.copy(os.path.join(TOP, "group_board"), folder)
        open(os.path.join(folder, "crates.txt"), "w").close()
        tools = os.path.join(folder, "tools")
        os.makedirs(tools)
        stand_in = os.path.join(folder, "stand_in")
        self.put(stand_in, PROGRAM)
        self.put(os.path.join(tools, "rt"), TOOLCHAIN)
        if is_built:
            self.put(os.path.join(crate, "out", "group_board"), PROGRAM)
        self.environment = dict(os.environ, PATH=tools + os.pathsep + os.environ["PATH"], STAND_IN=stand_in)

    @staticmethod
    def put(path, text):
        with open(path, "w") as file:
            file.write(text)
        os.chmod(path, 0o755)

    def run(self, *words, stdin=subprocess.DEVNULL, text=None, before=""):
        """Status, output and standard error of the launcher with these words."""
        command = ["bash", "-c", 'exec ./group_board "$@" ' + before, "launcher", *words]
        given = {"input": text} if text is not None else {"stdin": stdin}
        done = subprocess.run(command, cwd=self.folder, env=self.environment, stdout=subprocess.PIPE,
                              stderr=subprocess.PIPE, timeout=SECONDS, **given)
        return done.returncode, done.stdout, done.stderr.decode()


def expect(*facts):
    """The first fact that doesn't hold, or None."""
    return next((name for name, holds in facts if not holds), None)


def no_words(place):
    status, output, error = place.run()
    return expect(("status 2", status == 2), ("no output", output == b""), ("the text", "alone < " in error))


def help_is_asked_for(place):
    status, output, error = place.run("--help")
    texts = [b"step < ", b"run < ", b"admin < ", b"alone < ", b"--build", b"docs/formats.md"]
    return expect(("status 0", status == 0), ("each command", all(it in output for it in texts)), ("no more", error == ""))


def other_words(place):
    reading, writing = os.pipe()
    begin = time.monotonic()
    status, output, error = place.run("load", "7", "10", stdin=reading)
    os.close(reading)
    os.close(writing)
    return expect(("status 2", status == 2), ("the program's line", "group_board: usage\n" in error),
                  ("no wait", time.monotonic() - begin < 10), ("no output", output == b""))


def output_is_the_programs(place):
    text = b"one\n\xfftwo"
    status, output, error = place.run("admin", text=text)
    return expect(("status 0", status == 0), ("to the byte", output == text),
                  ("which program runs is said", (QUICK in error) != place.is_built))


def a_slow_pipe(place):
    reading, writing = os.pipe()
    slow = subprocess.Popen(["bash", "-c", "printf 'one\\n'; sleep 1; printf 'two\\n'"], stdout=writing)
    os.close(writing)
    status, output, _ = place.run("alone", stdin=reading)
    os.close(reading)
    slow.wait()
    return expect(("status 0", status == 0), ("all of it", output == b"one\ntwo\n"))


def an_endless_pipe(place):
    status, output, error = place.run("alone", stdin=subprocess.DEVNULL, before="< <(yes)")
    return expect(("status 7", status == 7), ("the program's line", "input too long\n" in error), ("no output", output == b""))


def a_directory(place):
    status, output, error = place.run("admin", before="< .")
    return expect(("status 4", status == 4), ("its sentence", "is a directory" in error), ("no output", output == b""))


def a_closed_stream(place):
    status, output, error = place.run("admin", before="<&-")
    return expect(("status 4", status == 4), ("its sentence", "is closed" in error), ("no output", output == b""))


def a_terminal(place):
    keyboard, screen = pty.openpty()
    os.write(keyboard, b"typed\n\x04")
    status, output, error = place.run("alone", stdin=screen)
    os.close(screen)
    os.close(keyboard)
    return expect(("status 0", status == 0), ("its sentence", "is a terminal" in error), ("what was typed", output == b"typed\n"))


def a_fault_is_explained(place):
    for cause in ("word", "number", "hex", "setup", "actor", "range", "kind", "limit"):
        status, output, error = place.run("alone", text=b"bad %s\ng1 in 0\t3\n" % cause.encode())
        told = error.splitlines()[-2:]
        fault = expect((f"status 6 of {cause}", status == 6), (f"output of {cause}", output == b"bad line 2: %s\n" % cause.encode()),
                       (f"line of {cause}", len(told) == 2 and told[0].endswith("line 2: g1 in 0?3")),
                       (f"sentence of {cause}", len(told) == 2 and f"{cause}: " in told[1] and "docs/" not in told[1]))
        if fault:
            return fault
    return None


def building(place):
    first, _, error = place.run("--build")
    status, output, later = place.run("admin", text=b"x")
    told = "stands built" in error or ("half an hour" in error and "built in 0 min" in error)
    return expect(("status 0", first == 0), ("how long", told), ("later runs use it", QUICK not in later),
                  ("and answer", (status, output) == (0, b"x")))


CASES = [no_words, help_is_asked_for, other_words, output_is_the_programs, a_slow_pipe, an_endless_pipe, a_directory,
         a_closed_stream, a_terminal, a_fault_is_explained, building]


def faults(names=()):
    """Each case with what is wrong, or None. With names, only cases whose name begins with one of them."""
    for case in CASES:
        for state, is_built in (("built", True), ("not_built", False)):
            name = f"launcher_{case.__name__}_where_{state}"
            if not name.startswith(tuple(names) or ""):
                continue
            with tempfile.TemporaryDirectory() as folder:
                try:
                    wrong = case(Place(folder, is_built))
                except subprocess.TimeoutExpired:
                    wrong = f"no answer in {SECONDS} seconds"
            yield name, wrong


if __name__ == "__main__":
    sys.exit(tell(faults(sys.argv[1:])))
