#!/usr/bin/env python3
"""Lists the places in src/ that an older form of the language left, by the points of docs/DESIGN-PASS.md.

    python3 tools/design_places.py [FOLDER]      each place, and how many there are of each kind
    python3 tools/design_places.py -n [FOLDER]   the numbers alone

It goes by text: what it prints is to be read. FOLDER is a checkout of this repository, here by default.
"""
import collections
import pathlib
import re
import sys

args = [a for a in sys.argv[1:] if a != "-n"]
quiet = "-n" in sys.argv
top = pathlib.Path(args[0] if args else ".")
files = {p: p.read_text() for p in sorted(top.glob("crates/*/src/**/*.rt"))}


def code(text):
    """The text without its tests and comments, line for line."""
    text = text.split("#[cfg(test)]")[0]
    return re.sub(r"//[^\n]*", "", text)


def show(point, kind, places):
    print(f"{point}  {kind}: {len(places)}")
    if not quiet:
        for place in places:
            print(f"      {place}")


def lines(pattern, keep_comments=False):
    found = []
    for path, text in files.items():
        body = text if keep_comments else code(text)
        for i, line in enumerate(body.split("\n"), 1):
            if re.search(pattern, line):
                found.append(f"{path.relative_to(top)}:{i}: {line.strip()[:110]}")
    return found


def functions():
    """Each function with a body: path, name, parameter names, contract, body."""
    for path, text in files.items():
        body_text = code(text)
        for m in re.finditer(r"(?m)^( *)(?:pub(?:\(crate\))? |final )*fn (\w+)", body_text):
            indent, name = m.group(1), m.group(2)
            end = re.search(r"(?m)^" + indent + r"\}$", body_text[m.start():])
            whole = body_text[m.start():m.start() + end.end()] if end else ""
            one_line = re.match(r"[^\n]*\{\}\n", body_text[m.start():])
            if one_line or not whole:
                continue
            params = re.search(r"\((.*?)\)\s*(?:->|\n|\{|requires|ensures)", whole, re.S)
            names = re.findall(r"(\w+):", params.group(1)) if params else []
            if params and "self" in params.group(1).split(",")[0]:
                names = ["self"] + names
            parts = re.split(r"(?m)^" + indent + r"\{$", whole, maxsplit=1)
            if len(parts) < 2:
                parts = re.split(r"\{\n", whole, maxsplit=1)
            if len(parts) < 2:
                continue
            # a trait's function without a body ends in a semicolon
            if ";\n" in parts[0] and "{\n" not in parts[0]:
                continue
            yield path, name, names, parts[0], parts[1].rstrip()[:-1].strip()


def body_key(body):
    return re.sub(r"\s+", " ", body)


def twins():
    by_body = collections.defaultdict(list)
    for path, name, _, _, body in functions():
        if len(body_key(body)) > 14:
            by_body[body_key(body)].append(f"{path.relative_to(top)} {name}")
    return [" = ".join(v) for v in by_body.values() if len(v) > 1]


def same_names():
    by_name = collections.defaultdict(set)
    for path, name, _, _, _ in functions():
        if name not in ("main", "new", "from", "fmt"):
            by_name[name].add(str(path.relative_to(top)))
    return [f"{n}: {', '.join(sorted(v))}" for n, v in sorted(by_name.items()) if len(v) > 1]


def hand_ons():
    found = []
    for path, name, params, _, body in functions():
        one = re.fullmatch(r"(?:[\w:]+(?:::<\w+>)?)\(([^()]*)\);?", body_key(body).rstrip(";"))
        if one:
            given = [re.sub(r"&mut \*|&\*|&mut self\.|self\.|&", "", a).strip() for a in one.group(1).split(",") if a.strip()]
            if given and set(given) <= set(params + ["terms"]) and len(given) >= len(params) - 1:
                found.append(f"{path.relative_to(top)} {name} -> {body_key(body)}")
    return found


def repeated_requires():
    facts = collections.defaultdict(list)
    for path, name, _, head, _ in functions():
        for clause in re.findall(r"requires(?: \w+)? \{(.*?)\}\s*\n", head, re.S):
            for fact in re.split(r" × ", clause):
                fact = re.sub(r"^[\s(]+|[\s)]+$", "", fact)
                facts[re.sub(r"\s+", " ", fact)].append(f"{path.parent.parent.name}::{name}")
    return [f"{f} : {', '.join(v)}" for f, v in facts.items() if len(v) > 2]


def repeated_answers():
    facts = collections.defaultdict(list)
    for path, name, _, head, _ in functions():
        for fact in re.findall(r"OnOk result \((.*?)\)+ \}", head):
            facts[fact].append(f"{path.parent.parent.name}::{name}")
    return [f"{f} : {', '.join(v)}" for f, v in facts.items() if len(v) > 2]


def pairs():
    together = collections.Counter()
    for _, _, names, _, _ in functions():
        for i, a in enumerate(names):
            for b in names[i + 1:]:
                together[(a, b)] += 1
    return [f"{a}, {b}: {k} functions" for (a, b), k in together.most_common() if k > 4]


for point, kind, places in [
    (1, "enums of our own", lines(r"^\s*(pub )?enum ")),
    (1, "flags in a struct or a variant", lines(r"^\s*(pub )?\w+: bool,|\w+: bool \}")),
    (1, "a number in place of an absence or a refusal", lines(r"^\s*(///|//).*\b(0|1|16|n|the largest|false|past the last)\b.*\b(where|outside|for block 0|for no|for want)\b", True)),
    (2, "functions with the same body", twins()),
    (2, "functions of one name in two files", same_names()),
    (2, "functions that only hand their parameters on", hand_ons()),
    (3, "while and loop", lines(r"\b(while|loop)\b")),
    (3, "for over a range of numbers", lines(r"\bfor \w+ in .*\.\.")),
    (3, "an index made from a loop's number", lines(r"\[\w+ as usize\]|\[i\]")),
    (4, "rows written out field by field", lines(r"\b(Block|Seat|Received|Vote|Certificate)Row \{|row: \w+Row \{|blank = \w+ \{")),
    (4, "match with only true and false, or only Some and None handed on", lines(r"=> (true|false),|None => None,|Err\(_\) => None")),
    (4, "numbers and sentences of an enum", lines(r"fn (number|sentence|numbered_line|refusal_line|side_word)\b")),
    (4, "conversions between numbers by hand", lines(r"\.min\(\d+\) as|> \d+ \{ 0 \}")),
    (5, "a fact required by three or more functions", repeated_requires()),
    (5, "a fact promised on Ok by three or more functions", repeated_answers()),
    (5, "parameters together in five or more functions", pairs()),
    (6, "a buffer of sixteen with its length beside", lines(r"\[u8; 16\].*\bn: u8|n: u8.*\[u8; 16\]|\.\.n as usize\]")),
    (6, "tables side by side", lines(r"&'a mut \[")),
    (7, "fn pointers, dyn and bounds on closures", lines(r"\bfn\(|\bdyn\b|impl Fn|: Fn")),
]:
    show(point, kind, places)
print("8  lines of proofs: " + str(sum(len(p.read_text().split("\n")) - 1 for p in top.glob("crates/*/proofs/**/*.antt"))))
