#!/usr/bin/env python3
"""Spells the definitions and lemmas of this repository as Rattle's own are spelled: functions, lemmas, fields and
variables in snake case, facts and types in camel case. Names from Rust source, names that the check makes for goals, and
names of other libraries keep their spelling.

usage: python3 tools/spell_names.py      at the top of the repository, once, after /opt/rattle/port/port.py
"""

import collections
import os
import re
import sys

CRATES = "crates"
# A run of characters that can be one name in a proof file.
TOKEN = re.compile(r"[^\s(){}\[\];:,.\"@`◌«»]+")
DECLARED = re.compile(r"^\s*(?:(?:abbrev|unfoldable|ruleset|mutual)\s+)*(?:pub\s+)?(" + TOKEN.pattern + r")\s*:(?!=)\s*(\S*)")
RECORD = re.compile(r"^\s*(?:pub\s+)?(?:record|data)\s+(" + TOKEN.pattern + ")")
USE = re.compile(r"^\s*(?:ghost |pub )*use ([^\s{;]+)\.\{([^}]*)\}")
# Names that the rules below would not spell well.
OWN = {
    "T-yes": "T_yes",
    "T-no": "T_no",
    "bit-or": "bit-bit_or",
    "over-after": "last_tick_of",
    "final-by": "final_tick_of",
    "getD-numbers": "get_or-numbers",
}
# Facts that stood in lower case, each private to the file that it is named with.
FACTS = {
    "laws/proofs/Tests.antt": {"is_none": "IsNone"},
    "laws/proofs/Refusing.antt": {"is_ok": "IsOk"},
    "laws/proofs/AcceptedOpening.antt": {"is_err": "IsErr"},
}


def files(*endings):
    for folder, dirs, names in os.walk(CRATES):
        dirs[:] = sorted(d for d in dirs if d != "out")
        for name in sorted(names):
            if name.endswith(endings):
                yield os.path.join(folder, name)


def read(path):
    with open(path, encoding="utf-8") as f:
        return f.read()


def spelled(name):
    if name in OWN:
        return OWN[name]
    if name[0].isupper():
        return "".join(w[:1].upper() + w[1:] for w in name.split("-"))
    return name.replace("-", "_")


def from_elsewhere(text):
    """The names that a file imports from outside the repository."""
    found = set()
    for line in text.split("\n"):
        m = USE.match(line)
        if m:
            parts = m.group(1).split(".")
            own = len(parts) > 1 and parts[0] == "Rattle" and os.path.isdir(os.path.join(CRATES, parts[1]))
            if not own:
                found |= {w.strip().split(" as ")[-1].strip() for w in m.group(2).split(",")}
    return found


def goals(text):
    """The names under which a file answers what the check asks for: the check makes these."""
    return set(re.findall(r"(?m)^(?:abbrev )?(?:pub )?(\S+) : goal\.", text))


def has_dash(token):
    return re.fullmatch(r"[^\W\d][\w']*(?:-[\w'+]+)+", token) is not None


def declared():
    """The names with a dash that the repository's own files declare."""
    names = set()
    for path in files(".antt"):
        text = read(path)
        asked = goals(text)
        for line in text.split("\n"):
            if line.lstrip().startswith("--") or line.startswith("use "):
                continue
            m = RECORD.match(line) or DECLARED.match(line)
            if m and has_dash(m.group(1)) and m.group(1) not in asked:
                names.add(m.group(1))
    return names


def turned(code, names, keep):
    """A piece of code with its names spelled. After a dot stands a field or a name of the check: only declared names change."""

    def one(m):
        token = m.group()
        if token in keep or not has_dash(token):
            return token
        after_dot = m.start() > 0 and code[m.start() - 1] == "."
        return spelled(token) if token in names or not after_dot else token

    return TOKEN.sub(one, code)


def split_comment(line, mark):
    at = line.find(mark)
    return (line, "") if at < 0 else (line[:at], line[at:])


def turn_file(path, names):
    text = read(path)
    keep = from_elsewhere(text) | goals(text)
    antt = path.endswith(".antt")
    out = []
    for line in text.split("\n"):
        code, comment = split_comment(line, "--" if antt else "//")
        pieces = re.split(r'("(?:[^"\\]|\\.)*")', code)
        code = "".join(p if i % 2 else turned(p, names, keep) for i, p in enumerate(pieces))
        out.append(code + comment)
    new = "\n".join(out)
    for old, word in FACTS.get(os.path.relpath(path, CRATES), {}).items():
        new = re.sub(rf"(?<![\w'.-]){old}(?![\w'-])", word, new)
    if new != text:
        with open(path, "w", encoding="utf-8") as f:
            f.write(new)


def turn_page(path, names):
    """In a page only what stands between backticks is a name."""
    text = read(path)
    new = re.sub(r"`([^`\n]+)`", lambda m: "`" + (spelled(m.group(1)) if m.group(1) in names else m.group(1)) + "`", text)
    if new != text:
        with open(path, "w", encoding="utf-8") as f:
            f.write(new)


def clashes(names):
    """Names that would fall together with another of the repository's or with a field of its Rust types."""
    by_new = collections.defaultdict(set)
    for n in names:
        by_new[spelled(n)].add(n)
    plain = set()
    for path in files(".antt"):
        for line in read(path).split("\n"):
            m = RECORD.match(line) or DECLARED.match(line)
            if m and not has_dash(m.group(1)):
                plain.add(m.group(1))
    found = [f"{new}: {', '.join(sorted(old))}" for new, old in sorted(by_new.items()) if len(old) > 1 or new in plain]
    for path in files(".antt", ".rt"):
        tokens = set(TOKEN.findall(read(path)))
        found += [f"{path}: {t}, {spelled(t)}" for t in sorted(tokens) if has_dash(t) and spelled(t) != t and spelled(t) in tokens]
    return found


def main():
    if not os.path.isdir(CRATES):
        print("run it at the top of the repository", file=sys.stderr)
        return 2
    names = declared()
    for line in clashes(names):
        print("fall together: " + line)
    for path in list(files(".antt", ".rt")):
        turn_file(path, names)
    pages = ["README.md"] + sorted(os.path.join("docs", f) for f in os.listdir("docs") if f.endswith(".md"))
    for path in pages:
        turn_page(path, names)
    print(f"{len(names)} names spelled")
    return 0


if __name__ == "__main__":
    raise SystemExit(main())
