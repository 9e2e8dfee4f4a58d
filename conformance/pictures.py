#!/usr/bin/env python3
"""The cases of tools/picture: pages of runs, their structure, and what a browser shows of them.

    conformance/pictures.py [NAME..]

The outputs are those of the examples, as conformance/cases has them, and one of tens of thousands of entries that
conformance/reference.py makes. Where Chromium is there, it loads each page without a window, and what stands in the page
then must be the run's entries; where it isn't, that is said in a line and not counted. The last line is 'N passed, M failed'.
"""
import html
import json
import os
import re
import shutil
import subprocess
import sys
import tempfile

import reference

TOP = os.path.dirname(os.path.dirname(os.path.abspath(__file__)))
TOOL = os.path.join(TOP, "tools", "picture")
CASES = os.path.join(TOP, "conformance", "cases")
STEPS = ["post", "pop", "judge", "act", "complete", "take"]
SECONDS = 120
ROWS_AT_FIRST = 100

sys.path[:0] = [os.path.join(TOP, "tools"), os.path.join(TOP, "bench")]
import boards
import board_output
import run_lines
import run_order
from telling import tell


def read(path):
    with open(path, encoding="ascii") as file:
        return file.read()


def pictured(text, script=None):
    """Status, page and standard error of tools/picture over an output, with its script or without."""
    with tempfile.NamedTemporaryFile("w") as file:
        file.write(script or "")
        file.flush()
        words = ["--script", file.name] if script is not None else []
        done = subprocess.run([sys.executable, TOOL, *words], input=text.encode("ascii"), stdout=subprocess.PIPE,
                              stderr=subprocess.PIPE, timeout=SECONDS)
    return done.returncode, done.stdout.decode(), done.stderr.decode()


def entries_of(text):
    """The cell and the line of each entry, read anew."""
    cell, found = None, []
    for line in text.splitlines():
        if re.fullmatch(r"guest \d+|owner|queue \d+|member \d+|end|left \d+ \d+", line):
            cell = line
        elif not cell.startswith("guest"):
            found.append((cell, line))
    return found


def data_of(page):
    return json.loads(re.search(r'<script id="run" type="application/json">(.*?)</script>', page, re.S).group(1))


def way_fault(run, way):
    """What is wrong with the way of a command, or None."""
    calls = [run["entries"][at]["raw"].split(" ")[2] for at in way]
    is_lost = any("-> lost" in run["entries"][at]["raw"] for at in way)
    ordered = [it for it in STEPS if it in calls and not (is_lost and it == "take")]
    if [it for it in calls if not (is_lost and it == "take")] != ordered or calls[0] != "post" or way != sorted(way):
        return f"a command's way is {calls} at {way}"
    return None


def page_fault(text, page):
    """What is wrong with the page of an output, or None."""
    run = data_of(page)
    shown = [(it["cell"], it["raw"]) for it in run["entries"]]
    if sorted(shown) != sorted(entries_of(text)):
        return f"{len(shown)} entries, and the output has {len(entries_of(text))}"
    for cell in run["cells"]:
        places = [it["place"] for it in run["entries"] if it["cell"] == cell]
        if places != list(range(len(places))):
            return f"{cell} isn't in its order"
    if "http" in re.sub(r"http://www.w3.org/2000/svg", "", page):
        return "something from elsewhere"
    if "may have come in another order" not in page:
        return "nothing on the order of entries"
    ways = [it for it in (way_fault(run, way) for way in run["commands"]) if it]
    return ways[0] if ways else None


class Noted:
    """The order in which a run of conformance/reference.py made its entries."""

    def __init__(self, script):
        self.made, ask = [], reference.Cell.ask

        def noting(cell, who, call):
            place, reply = ask(cell, who, call)
            if len(cell.entries) > place:
                self.made.append((cell, place))
            return place, reply

        reference.Cell.ask = noting
        try:
            self.board = reference.Board(reference.read_script(script))
            self.board.run()
        finally:
            reference.Cell.ask = ask
        self.text = "".join(it + "\n" for it in self.board.text())

    def position(self):
        board = self.board
        names = {id(board.owner): "owner", **{id(it): f"queue {k}" for k, it in enumerate(board.queues)},
                 **{id(it): f"member {m}" for m, it in enumerate(board.members, 1)}}
        return {(names[id(cell)], place): at for at, (cell, place) in enumerate(self.made)}


def order_fault(script, with_lines):
    """Whether the order that a run had breaks what the page takes as necessary, without the script or with it, or None."""
    run = Noted(script)
    output = board_output.read_output(run.text)
    order, position = run_order.Order(output, run_order.find_commands(output)), run.position()
    if with_lines:
        run_lines.give_lines(output, order, script)
    for at, afters in enumerate(order.after):
        first = order.entries[at]
        for then in (order.entries[it] for it in afters):
            if position[first.cell, first.place] > position[then.cell, then.place]:
                return f"{first.name()} came after {then.name()}"
    return None


def lines_fault(text, script):
    """Whether each line that makes calls on members or posts a command has its entries on the page, or None."""
    status, page, error = pictured(text, script)
    if status:
        return error
    run = data_of(page)
    shown = {it["line"] for it in run["entries"]} - {None}
    answers = {line: answer for found in run["answers"].values() for line, answer in found}
    for number, line in enumerate(script.split("\n"), 1):
        words = line.split(" ")
        if not re.fullmatch(r"g\d+|w\d+|host", words[0]) or words[1] in ("io", "cfg", "serve"):
            continue
        is_silent = words[1] in ("in", "out") and (answers[number].startswith("full") or set(answers[number]) <= set("fok"))
        if number not in shown and not is_silent:
            return f"line {number} ({line}) is on no entry"
    return None if all(run["lines"][str(it)] for it in shown) else "a line without its text"


# ---- what a text that is no output is told

def refusal_fault(text, words, script=None):
    status, page, error = pictured(text, script)
    if status != 1 or page or error.count("\n") != 1 or not error.startswith("picture: ") or words not in error:
        return f"status {status}, {len(page)} bytes, {error!r}, expected {words!r}"
    return None


def refusals(text):
    lines = text.splitlines(keepends=True)
    post = next(at for at, it in enumerate(lines) if " post " in it)
    changed = lambda old, new: text.replace(old, new, 1)
    yield "empty", "", "empty"
    yield "cut_off", "".join(lines[:-1]), "cut off"
    yield "refusal_of_a_script", "bad line 3: actor\n", "refusal of a script"
    yield "output_of_alone", "guest 1\n3 ok\nend\n", "no histories"
    yield "output_of_admin", "done 0000000000000000\n", "'admin'"
    yield "no_output_at_all", "hello\n", "line 1:"
    yield "behind_the_end", text + "x\n", "behind 'end'"
    yield "a_place_left_out", "".join(lines[:post] + lines[post + 1:]), f"line {post + 1}: place 1 of queue 0"
    yield "an_unknown_call", changed(" pop ", " pup "), "is no call on a cell"
    yield "an_unknown_reply", changed("-> list 127", "-> lost 127"), "is no reply"
    yield "an_unknown_actor", changed(" board pop", " borat pop"), "is no actor"
    yield "a_verdict_on_another_command", changed("judge 0000", "judge 0001"), "the owner judged a command"
    yield "an_act_that_nobody_asked_for", changed("-> legacy 1", "-> refused 22 4 0"), "handed on to nobody"


# ---- a browser

def browser():
    return next((it for it in ("chromium", "chromium-browser", "google-chrome", "chrome") if shutil.which(it)), None)


def loaded(program, page, address):
    """What stands in a page once its script has run."""
    with tempfile.TemporaryDirectory() as folder:
        path = os.path.join(folder, "page.html")
        with open(path, "w", encoding="utf-8") as file:
            file.write(page)
        words = [program, "--headless", "--disable-gpu", f"--user-data-dir={folder}/profile", "--dump-dom", f"file://{path}{address}"]
        if os.geteuid() == 0:
            words.insert(1, "--no-sandbox")
        return subprocess.run(words, stdout=subprocess.PIPE, stderr=subprocess.DEVNULL, timeout=SECONDS).stdout.decode()


def shown_in(dom):
    found = re.findall(r'<g class="entry[^"]*" data-number="(\d+)" data-cell="([^"]+)" data-place="(\d+)"', dom)
    return [(cell, int(place)) for _, cell, place in found]


def whole_fault(program, page):
    """Whether a browser shows all entries of a page, in its order, with their words."""
    run = data_of(page)
    dom = loaded(program, page, f"#rows={len(run['entries'])}")
    if shown_in(dom) != [(it["cell"], it["place"]) for it in run["entries"]]:
        return f"{len(shown_in(dom))} entries are shown of {len(run['entries'])}"
    missing = [it["call"] for it in run["entries"] if html.escape(it["call"], quote=False) not in dom]
    return f"these words aren't shown: {missing[0]}" if missing else None


def part_fault(program, page):
    """Whether a browser shows the part of a page that its address asks for: up to an entry, and behind filters."""
    run = data_of(page)
    whole, last = [(it["cell"], it["place"]) for it in run["entries"]], run["entries"][-1]
    dom = loaded(program, page, f"#entry={last['cell']} {last['place']}".replace(" ", "%20"))
    begin = (len(whole) - 1) // ROWS_AT_FIRST * ROWS_AT_FIRST
    if shown_in(dom) != whole[begin:]:
        return f"the part of the last entry has {len(shown_in(dom))} entries"
    dom = loaded(program, page, "#rows=1000&guest=1&queue=0&part=1")
    passing = [(it["cell"], it["place"]) for it in run["entries"] if it["across"] or
               it["phase"] == 1 and (not it["guests"] or 1 in it["guests"]) and (not it["queue"] or 0 in it["queue"])]
    return None if shown_in(dom) == passing[:1000] else f"filtered, {len(shown_in(dom))} entries are shown of {len(passing)}"


def acted(program, page, action):
    """The entries that are shown, and those that are marked, once an action in JavaScript was done."""
    dom = loaded(program, page.replace("</body>", f"<script>{action}</script></body>"), "#rows=1000")
    marked = re.findall(r'<g class="entry[^"]* way[^"]*" data-number="(\d+)"', dom)
    return shown_in(dom), [int(it) for it in marked]


def pointer_fault(program, page):
    """The way of a command is marked as one where the pointer is on any part of it."""
    run = data_of(page)
    for way in (run["commands"][0], run["commands"][-1]):
        for part in (way[0], way[-1]):
            action = f"document.querySelector('.entry[data-number=\"{part}\"]').dispatchEvent(new MouseEvent('mouseenter'))"
            marked = acted(program, page, action)[1]
            if marked != way:
                return f"with the pointer on {part} these are marked: {marked}, and the way is {way}"
    return None


def clicks_fault(program, page):
    """Filters by click: guest 2 alone; and back."""
    chip = "document.querySelector('[data-filter=\"guest 1\"]').click();"
    run = data_of(page)
    whole = [(it["cell"], it["place"]) for it in run["entries"]]
    others = [(it["cell"], it["place"]) for it in run["entries"] if it["across"] or not it["guests"] or it["guests"] != [1]]
    if acted(program, page, chip)[0] != others:
        return "without guest 1 other entries are shown"
    return None if acted(program, page, chip + chip)[0] == whole else "turned on again, not all entries are shown"


# ---- the cases

def scripts():
    """Name and script of each run that is pictured."""
    for case in sorted(os.listdir(CASES)):
        folder = os.path.join(CASES, case)
        if case.startswith("example_") and os.path.isfile(f"{folder}/words") and read(f"{folder}/words") == "step\n":
            if os.path.isfile(f"{folder}/stdin.file"):
                yield case, read(os.path.join(TOP, read(f"{folder}/stdin.file").strip()))
            elif os.path.isfile(f"{folder}/stdin"):
                yield case, read(f"{folder}/stdin")
    yield "a_big_run", boards.register_accesses(1 << 16).decode("ascii")
    yield "a_reset_in_an_access", "board 1 4 1\nguest 1 block 1 8\nguest 2 net 1 020000000002\ng1 in 18 1\ng2 in 18 1\nhost reset\ngo g1 1 w0 1 host 3\n"


# What a page says of memory in rings, by the place in member 1's history, of two examples.
RINGS = {
    "hang_wrong_index": {
        4: "", 5: "queue 0, descriptor 0: 16 at 12288, then 1; descriptor 1: 21 at 12800, WRITE",
        6: "queue 0, available ring: flags 0, idx 256, entry 0: head 0", 11: "queue 0, available ring: idx 1",
        15: "queue 0, used ring: flags 0, idx 0", 20: "queue 0, used ring: flags 0, idx 1", 21: "",
    },
    "block_tables_and_events": {
        12: "",
        14: "queue 0, table of descriptor 0: descriptor 0: 16 at 12288, then 1; descriptor 1: 512 at 12800, then 2; "
            "descriptor 2: 1 at 12304, WRITE",
        15: "queue 0, descriptor 0: 48 at 12544, INDIRECT", 24: "queue 0, available ring: used_event 1",
        39: "queue 0, table of descriptor 0: descriptor 0: 16 at 13824, then 1; descriptor 1: 1 at 13840, WRITE",
        41: "queue 0, descriptor 0: 32 at 12672, INDIRECT; descriptor 1: 32 at 12736, INDIRECT",
        45: "queue 0, used ring: avail_event 2",
    },
}


def rings_fault(name):
    script = read(os.path.join(TOP, "examples", f"{name}.script"))
    run = data_of(pictured(reference.answer("step", script))[1])
    entries = [it for it in run["entries"] if it["cell"] == "member 1" and it["place"] in RINGS[name]]
    said = {it["place"]: it["ring"] for it in entries}
    return None if said == RINGS[name] else f"{said}"


def features_fault():
    """What a page says of the features of a device and of those that its driver accepts."""
    script = "board 1 4 0\nguest 1 block 1 8\ng1 in 0 4\ng1 out 4 00000030\ng1 out 4 400a0008\n"
    run = data_of(pictured(reference.answer("step", script))[1])
    said = [it["call"] + ": " + it["reply"] for it in run["entries"] if it["cell"] == "member 1" and it["who"] == "g1"]
    expected = ["read device features: 400a0038 (with INDIRECT_DESC and EVENT_IDX)",
                "write driver features = 00000030 (with INDIRECT_DESC and EVENT_IDX): done",
                "write driver features = 400a0008: done"]
    return None if said == expected else f"{said}"


def cases():
    program = browser()
    if program is None:
        print("conformance: there is no Chromium here, so no page is loaded in a browser", flush=True)
    for name, script in scripts():
        text = reference.answer("step", script)
        status, page, error = pictured(text)
        yield f"picture_{name}", lambda: page_fault(text, page) if status == 0 else error
        yield f"picture_order_of_{name}", lambda: order_fault(script, False)
        yield f"picture_order_with_the_lines_of_{name}", lambda: order_fault(script, True)
        yield f"picture_with_the_lines_of_{name}", lambda: lines_fault(text, script)
        if program is not None and name != "a_big_run":
            yield f"picture_in_a_browser_{name}", lambda: whole_fault(program, page)
        if program is not None and name in ("a_big_run", "example_two_guests"):
            yield f"picture_in_parts_{name}", lambda: part_fault(program, page)
        if program is not None and name == "example_two_guests":
            yield f"picture_under_the_pointer_{name}", lambda: pointer_fault(program, page)
            yield f"picture_after_clicks_{name}", lambda: clicks_fault(program, page)
    for name in RINGS:
        yield f"picture_says_what_stands_in_rings_of_{name}", lambda: rings_fault(name)
    yield "picture_names_features_of_queues", features_fault
    text = reference.answer("step", "board 1 4 0\nguest 1 block 1 8\ng1 in 12 2\n")
    for name, script in (("another_script", "board 1 4 0\nguest 1 block 1 8\n\ng1 in 12 2\n"), ("another_line", "board 1 4 0\nguest 1 block 1 8\ng1 in 12 1\n")):
        yield f"picture_refuses_{name}", lambda: refusal_fault(text, "the script isn't the one of this output", script)
    for name, given, words in refusals(text):
        yield f"picture_refuses_{name}", lambda: refusal_fault(given, words)


def faults(names=()):
    """Each case with what is wrong, or None. With names, only cases whose name begins with one of them."""
    if names and not any("picture".startswith(it[:7]) for it in names):
        return
    for name, fault_of in cases():
        if name.startswith(tuple(names) or ""):
            try:
                yield name, fault_of()
            except subprocess.TimeoutExpired:
                yield name, f"no answer in {SECONDS} seconds"


if __name__ == "__main__":
    sys.exit(tell(faults(sys.argv[1:])))
