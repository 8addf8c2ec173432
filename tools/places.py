#!/usr/bin/env python3
"""The places in crates/*/src of the points of docs/DESIGN-PASS.md, found by pattern: `tools/places.py [-v]`, -v with each place."""
import collections, glob, os, re, sys

os.chdir(os.path.join(os.path.dirname(os.path.abspath(__file__)), ".."))
FILES = sorted(glob.glob("crates/*/src/*.rt"))
LINES = [(f, i + 1, re.sub(r"//.*", "", l)) for f in FILES for i, l in enumerate(open(f, encoding="utf-8").read().split("\n"))]


def functions():
    """Each function: file, line, name, parameters, contract, body."""
    for f in FILES:
        text = re.sub(r"//[^\n]*", "", open(f, encoding="utf-8").read())
        for m in re.finditer(r'^( *)(?:pub )?(?:extern "C" )?fn (\w+)', text, re.M):
            end = text.find("\n" + m.group(1) + "}\n", m.end())
            whole = text[m.start():end]
            split = re.search(r"\n *\{\n| \{\n", whole)
            head, body = (whole[:split.start()], whole[split.end():]) if split else (whole, "")
            contract = re.search(r"\n *(requires|ensures)", head)
            signature, contract = (head[:contract.start()], head[contract.start():]) if contract else (head, "")
            yield f, text.count("\n", 0, m.start()) + 1, m.group(2), signature, contract, body


def lines(pattern):
    return [(f, n, l.strip()) for f, n, l in LINES if re.search(pattern, l)]


def having(*parts):
    """Functions whose signature has all the parts."""
    return [(f, n, name) for f, n, name, s, _, _ in functions() if all(re.search(p, s) for p in parts)]


def asking(fact):
    return [(f, n, name) for f, n, name, _, c, _ in functions() if re.search(fact, c)]


def twins():
    """Functions with the same shape: bodies that are equal once names and numbers are numbered in their order."""
    shapes = collections.defaultdict(list)
    for f, n, name, signature, _, body in functions():
        seen = {}
        shape = re.sub(r"[A-Za-z_]\w*|\d+", lambda m: m.group(0) if m.group(0) in KEYWORDS else seen.setdefault(m.group(0), f"v{len(seen)}"), body)
        shapes[re.sub(r"\s+", " ", shape).strip()].append((f, n, name))
    return [place for group in shapes.values() if len(group) > 1 for place in group]


KEYWORDS = set("let mut if else while for in return match fn as true false u8 u32 u64 usize bool break continue loop move".split())

POINTS = [
    ("1a refusals by number", lambda: lines(r"\bno\(\d+,")),
    ("1b an answer's number asked as a flag", lambda: lines(r"\.number (!=|==) 0")),
    ("1c a setting as a number", lambda: [p for p in having(r"\b(setting|number): u64") if p[2] not in ("last_digit", "write_number", "put_number", "show_number")]),
    ("1d a number or a flag that stands for none", lambda: lines(r"return (0|16|count|none);|\b(found|settled) == 0|16 <= digit|got (<|==) 0|-> bool$|-> bool \{|^\) -> bool")),
    ("2 functions of one shape", twins),
    ("3 loops that count by hand", lambda: lines(r"\bwhile\b")),
    ("4 conversions, comparisons and printing by hand", lambda: [p for p in ((f, n, name) for f, n, name, *_ in functions()) if re.fullmatch(r"wide|one|larger|smaller|differ|digit|value|character|wide_digit|yes|no|parameters|is_setting|setting_of|print|fail|write_str|show|show_number|show_answer", p[2])]),
    ("5a q and products", lambda: having(r"\bq: usize", r"products: &Products")),
    ("5b setting, products and rows", lambda: having(r"\bp: Setting", r"products: &Products", r"rows: &\[u8\]")),
    ("5c the block step's working areas", lambda: having(r"series: &mut", r"information: &mut")),
    ("5d a line's working areas", lambda: having(r"reception: &mut", r"message: &mut", r"transmission: &mut")),
    ("5e a field's lists", lambda: having(r"powers: &\[u8\]", r"exponents: &\[u8\]")),
    ("5f message and residual", lambda: having(r"message: &mut", r"residual: &mut")),
    ("5g locator, former, spare", lambda: having(r"locator: &mut", r"former: &mut")),
    ("5h the number is a setting's", lambda: asking(r"Passes \(is_setting")),
    ("6 buffers with a length beside", lambda: having(r"(line|output): &mut \[u8\]", r"(held|filled): usize") + lines(r"^\s*(held|filled): usize,$")),
    ("7 a switch on which step to run", lambda: lines(r"if call == |\bdown: bool|\bif down\b|if number < [2-9]|if q == \d+")),
]

for title, find in POINTS:
    found = sorted(set(find()))
    print(f"{len(found):4} {title}")
    if "-v" in sys.argv:
        for f, n, what in found:
            print(f"       {f}:{n}: {what}")
