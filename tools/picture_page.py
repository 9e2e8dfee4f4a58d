"""The page of a run: its entries in order, as data beside the script that draws them."""
import html
import json
import os
import re

from ring_words import ring_words
from run_words import words_of

HERE = os.path.dirname(os.path.abspath(__file__))
BRING_UP, LINES, DRAIN = 0, 1, 2


def actor_rank(who):
    return ("board", "g", "w", "host").index(who if who in ("board", "host") else who[0]), int(who[1:]) if who[1:].isdigit() else 0


def cell_rank(cell):
    kind, _, number = cell.partition(" ")
    return ("owner", "queue", "member").index(kind), int(number or 0)


def guests_of(entry):
    """The guests that an entry is about: who called, and whose command it is."""
    found = [int(entry.who[1:])] if entry.who[0] == "g" else []
    if entry.command and entry.command.guest and entry.command.guest not in found:
        found.append(entry.command.guest)
    if not found and entry.cell.startswith("member"):
        found.append(int(entry.cell.split()[1]))
    return found


def queues_of(entry):
    cell = entry.command.queue if entry.command else entry.cell
    return [int(cell.split()[1])] if cell.startswith("queue") else []


def members_of(entry):
    if entry.cell.startswith("member"):
        return [int(entry.cell.split()[1])]
    if entry.command:
        return [entry.command.member] if entry.command.member else []
    return [int(entry.call[1])] if entry.call[0] == "gone" else []


def across_of(entry):
    """What stands as a line across the lanes behind this entry, if anything."""
    if entry.who != "host":
        return ""
    if entry.cell == "owner" and entry.call[0] == "reset":
        return "the host resets the owner: every member has gone"
    if entry.call[0] == "kill" and entry.part_of is not None and entry.part_of.call[0] == "gone":
        return f"the host disables {entry.cell}: from here on it is gone"
    return ""


def phase_of(entry, order):
    return BRING_UP if id(entry) in order.in_bring_up else DRAIN if id(entry) in order.in_drain else LINES


def entry_data(entry, order, number, rings):
    call, reply, tone = words_of(entry)
    return {
        "who": entry.who, "cell": entry.cell, "place": entry.place, "call": call, "reply": reply, "tone": tone,
        "command": number.get(id(entry.command)), "guests": guests_of(entry), "queue": queues_of(entry),
        "member": members_of(entry), "phase": phase_of(entry, order), "across": across_of(entry), "raw": entry.text(),
        "line": entry.script_line, "ring": rings.get(id(entry), ""),
    }


def run_data(output, commands, order, lines):
    entries = order.sorted()
    position = {id(entry): at for at, entry in enumerate(entries)}
    number = {id(command): at for at, command in enumerate(commands)}
    rings = ring_words(output)
    data = [entry_data(it, order, number, rings) for it in entries]
    cells = sorted(output.cells, key=cell_rank)
    return {
        "actors": sorted({it.who for it in entries}, key=actor_rank), "cells": cells,
        "guests": [int(it.split()[1]) for it in output.answers], "queues": [int(it.split()[1]) for it in cells if it[0] == "q"],
        "phases": sorted({it["phase"] for it in data}), "entries": data,
        "commands": [sorted(position[id(it)] for it in command.steps()) for command in commands],
        "answers": output.answers, "left": output.left, "lines": lines,
    }


def template(name):
    with open(os.path.join(HERE, name), encoding="utf-8") as file:
        return file.read()


def page_of(output, commands, order, lines, title):
    data = json.dumps(run_data(output, commands, order, lines), separators=(",", ":"), ensure_ascii=True)
    parts = {
        "TITLE": html.escape(f"{title}: {len(order.entries)} entries, {len(output.cells)} cells"),
        "RUN": data.replace("</", "<\\/"),
        "SCRIPT": template("picture.js").strip(),
    }
    return re.sub("@(TITLE|RUN|SCRIPT)@", lambda found: parts[found.group(1)], template("picture.html"))
