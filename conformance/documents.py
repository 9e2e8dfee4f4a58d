#!/usr/bin/env python3
"""Whether the documents speak of what is there: links, names of definitions and calls, scripts of the worked cases.

    conformance/documents.py

In docs/virtio.md `crate::name` is a definition in crates/CRATE/specs or a public call in crates/CRATE/src, and
`crate::Type::name` a call of a type. The outputs that docs/guide.md shows of an example are lines of that example's case.
The last line is 'N passed, M failed'.
"""
import os
import re
import sys

import reference
from telling import tell

TOP = os.path.dirname(os.path.dirname(os.path.abspath(__file__)))


def read(*path):
    with open(os.path.join(TOP, *path), encoding="utf-8") as file:
        return file.read()


def sources(crate, part, end):
    folder = os.path.join(TOP, "crates", crate, part)
    return "\n".join(read(place, it) for place, _, files in os.walk(folder) for it in sorted(files) if it.endswith(end))


def is_there(name):
    crate, *path = name.split("::")
    code = sources(crate, "src", ".rt")
    is_called = re.search(rf"\b(fn|struct|enum|const) {path[-1]}\b", code)
    if len(path) == 2:
        return bool(is_called and re.search(rf"\b(struct|enum) {path[0]}\b", code))
    return bool(is_called or re.search(rf"^\w[\w ]*\bpub {path[-1]} *:|^pub (data|record|law|axiom)? ?{path[-1]}\b", sources(crate, "specs", ".antt"), re.M))


def names_fault():
    names = sorted(set(re.findall(r"`([a-z_]+(?:::\w+)+)`", read("docs", "virtio.md"))))
    missing = [it for it in names if not is_there(it)]
    return f"docs/virtio.md names what isn't there: {', '.join(missing)}" if missing or not names else None


def heading_anchors(text):
    return {re.sub(r"[^\w\- ]", "", it.lower()).replace(" ", "-") for it in re.findall(r"^#+ (.*)$", text, re.M)}


def link_fault(document):
    text = re.sub(r"```.*?```", "", read(document), flags=re.S)
    for target in re.findall(r"\]\(([^)\s]+)\)", text):
        path, _, anchor = target.partition("#")
        if re.match(r"[a-z]+:", target):
            continue
        whole = os.path.normpath(os.path.join(TOP, os.path.dirname(document), path)) if path else os.path.join(TOP, document)
        if not os.path.exists(whole):
            return f"{document}: there is no {target}"
        if anchor and anchor not in heading_anchors(read(whole)):
            return f"{document}: {target} has no such heading"
    return None


def guide_fault():
    """Each block of a worked case is lines of its output, one after another."""
    for name, part in re.findall(r"\[examples/(hang_\w+)\.script\](.*?)(?=\n###|\Z)", read("docs", "guide.md"), re.S):
        output = read("conformance", "cases", f"example_{name}", "stdout").splitlines()
        for block in re.findall(r"```text\n(.*?)```", part, re.S):
            missing = [line for line in block.splitlines() if line not in output]
            if missing:
                return f"docs/guide.md: '{missing[0]}' is no line of the output of {name}"
    return None


def first_script_fault():
    """What the guide shows of its first script is what that script prints, before and after more lines were put behind it."""
    part = read("docs", "guide.md").split("## My driver hangs")[0]
    blocks = re.findall(r"```text\n(.*?)```", part, re.S)
    scripts = [it for it in blocks if re.match(r"board |g1 ", it)]
    outputs = "".join(reference.answer("step", "".join(scripts[:count])) for count in range(1, len(scripts) + 1)).splitlines()
    shown = [line for it in blocks if it not in scripts for line in it.splitlines() if line[0].isdigit()]
    missing = [line for line in shown if line not in outputs]
    return f"docs/guide.md: '{missing[0]}' is no line of its first script's output" if missing or not shown else None


def faults(names=()):
    """Each case with what is wrong, or None. With names, only cases whose name begins with one of them."""
    documents = ["README.md", "examples/recorded/README.md", *(f"docs/{it}" for it in sorted(os.listdir(os.path.join(TOP, "docs"))) if it.endswith(".md"))]
    cases = [("documents_names_in_virtio", names_fault), ("documents_outputs_in_the_guide", guide_fault),
             ("documents_first_script_of_the_guide", first_script_fault)]
    cases += [(f"documents_links_of_{it[:-3].replace('/', '_')}", lambda it=it: link_fault(it)) for it in documents]
    return [(name, fault_of()) for name, fault_of in cases if name.startswith(tuple(names) or "")]


if __name__ == "__main__":
    sys.exit(tell(faults(sys.argv[1:])))
