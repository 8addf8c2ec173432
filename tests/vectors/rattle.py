#!/usr/bin/env python3
"""Makes stdin and stdout of crates/link_test and crates/block_test: the calls of calls.jsonl and of examples.py, and what the programs must write.

link_test, all calls but block steps. A line of stdin: the call's letter, the setting, j or D, the lengths of three areas and the areas, all in hexadecimal
(crates/link_test/src/main.rt). A line of stdout: number, place, altered and unknown symbols of the answer in decimal, then what the call returned and what it
left in the areas; for a desk line, its answer.
block_test, the block steps. A line of stdin: the setting, the level and the block, in hexadecimal, ff for an unknown symbol. Stdout: first the counts that the
program makes without input (block-counts.txt); then for each line of stdin the code block, in hexadecimal, or none, and a digit for each symbol's mark.
Run it where it stands; `--check` only says whether the files are up to date."""
import itertools, json, os, sys

from examples import examples

here = os.path.dirname(os.path.abspath(__file__))
crates = os.path.join(here, "..", "..", "crates")


# What is said of an answer.
NAMES = ("number", "place", "count", "unknown")


def said(answer):
    return [str(answer[name]) for name in NAMES]


def said_of_frames(answers):
    """The answers of eight frames; those that are not there are zeros."""
    none = dict.fromkeys(NAMES, 0)
    return [number for f in range(8) for number in said(answers[f] if f < len(answers) else none)]


# The call's letter, its areas, and what it writes after the answer.
CALLS = {
    "encode": ("E", lambda a: (a["message"], "", a["tarea"]), lambda r: [r["transmission"]]),
    "decode": (
        "D",
        lambda a: (a["reception"], a["marea"], a["tarea"]),
        lambda r: [r["message"], r["transmission"]],
    ),
    "window": ("W", lambda a: (a["reception"], "", ""), lambda r: [r["part"]]),
    "marks": ("M", lambda a: (a["reception"], a["transmission"], ""), lambda r: [str(r["marks"]), str(r["ones"])]),
    "weave": ("V", lambda a: (a["frames"], "", a["area"]), lambda r: [r["area"]]),
    "unweave": ("U", lambda a: (a["woven"], "", a["area"]), lambda r: [r["area"]]),
    "decode_woven": (
        "F",
        lambda a: (a["woven"], a["marea"], a["tarea"]),
        lambda r: [*said_of_frames(r["frames"]), r["message"], r["transmission"]],
    ),
    "line": ("L", lambda a: (a["line"], "", ""), lambda r: [r["line"]]),
}

# The most bytes of an area there; calls with a longer one, those of the longest orders and lines, are made by bench/tests alone.
LONGEST = 16400


def link_lines(call, arguments, result):
    """A line of stdin and one of stdout; none for a call with a longer area."""
    letter, areas, returned = CALLS[call]
    held = areas(arguments)
    if max(map(len, held)) > 2 * LONGEST:
        return "", ""
    numbers = arguments.get("number", 0), arguments.get("j", arguments.get("D", 0))
    head = [letter, *("%016x" % number for number in numbers), *("%04x" % (len(area) // 2) for area in held)]
    answer = said(result["answer"]) if "answer" in result else []
    return " ".join(head) + " " + "".join(held) + "\n", " ".join(answer + returned(result)) + "\n"


def block_lines(arguments, result):
    block, (code_block, marks) = arguments["block"], result
    digits = "".join(str(marks >> i & 1) for i in range(len(block) // 2))
    return f"{arguments['number']:x} {arguments['level']:x} {block}\n", f"{code_block or 'none'} {digits}\n"


texts = {"link_test/stdin": [], "link_test/stdout": [], "block_test/stdin": []}
with open(os.path.join(here, "block-counts.txt")) as counts:
    texts["block_test/stdout"] = [counts.read()]
with open(os.path.join(here, "calls.jsonl")) as lines:
    for call in itertools.chain(map(json.loads, lines), examples()):
        kind, arguments, result = call["call"], call["args"], call["result"]
        if kind == "block_step":
            program, (given, expected) = "block_test", block_lines(arguments, result)
        else:
            program, (given, expected) = "link_test", link_lines(kind, arguments, result)
        texts[program + "/stdin"].append(given)
        texts[program + "/stdout"].append(expected)

stale = False
for name, parts in texts.items():
    path, text = os.path.join(crates, name), "".join(parts)
    if "--check" not in sys.argv:
        with open(path, "w") as f:
            f.write(text)
    elif not os.path.exists(path) or open(path).read() != text:
        print(f"{name} is not what rattle.py makes")
        stale = True
sys.exit(stale)
