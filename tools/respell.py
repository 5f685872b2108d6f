#!/usr/bin/env python3
"""Brings the repository's own names in specs/ and proofs/ to one spelling: words in snake case, facts, types and modules in camel case.

usage: python3 tools/respell.py [--look]     at the top of the repository; with --look nothing is written

A name is the repository's own if an .antt file of crates/ declares it and it is no answer to a goal. Goals, steps, clauses' labels and
names of src/ keep their spelling, and so does what stands in a string. Names that would fall together with another are printed, and
then nothing is written.
"""

import os
import re
import sys

WORD = re.compile(r"[^\s(){}\[\].,;@\"`«»|]+")
DECLARED = re.compile(r"^[ ]*((?:abbrev |unfoldable |pub )*)(record |data )?(?:pub )?([^\s(){}\[\].,;:\"]+)((?:\s+\([^)]*\)|\s+\{[^}]*\})*)\s*:\s+(.*)$", re.M)
MIDDLE = re.compile(r"([a-z0-9])([A-Z])")

# spelled by hand: std's own word changed, or a capital that is a name of its own
BY_HAND = {
    "getD-counting": "get_or_counting",
    "getD-of-map": "get_or_of_map",
    "getD-zeros": "get_or_zeros",
    "made-below": "MadeBelow",
    "valueAfter-ge": "value_after_ge",
    # the flows' own paths, over numbers alone, are FlowPath
    "Flow-path": "IsFlowPath",
}

# new spellings that stand already, read one by one: a function, a field of src/ or a field of another record, never a name of one scope
SHARED = """
answer_text count_text fault_in first_steps first_stray flow_count flow_fits flow_number flow_records flow_room flows_apart flows_good
full_identity_is_refused_for_adverts good_row head_fault in_range is_allow is_dash is_marked labels_settled lattice_names
ledgers_stay_sound node_count node_fits node_records node_room nodes_good number_text or_top path_text policy_names refusal_text
room_text rows_bounded rows_good rows_silent runs_keep_the_promise scheme_names set_text size_text value_fault verdict_text
workspace_words
""".split()


def files(root):
    for folder, dirs, names in os.walk(os.path.join(root, "crates")):
        dirs[:] = sorted(d for d in dirs if d != "out")
        for n in sorted(names):
            if n.endswith((".antt", ".rt", ".edit")):
                yield os.path.join(folder, n)


def read(path):
    with open(path, encoding="utf-8") as f:
        return f.read()


def declared(root):
    """The own names, each with what its declarations say: a definition of a type, or anything else."""
    kinds = {}
    for path in files(root):
        if not path.endswith(".antt"):
            continue
        for m in DECLARED.finditer(read(path)):
            if m.group(5).startswith("goal."):
                continue
            kinds.setdefault(m.group(3), set()).add(bool(m.group(2)) or m.group(5).rstrip().endswith("Type 0"))
    return kinds


def spelled(name):
    if name in BY_HAND:
        return BY_HAND[name]
    parts = name.split("-")
    if re.fullmatch(r"[A-Z][a-z]+", parts[0]) and all(re.fullmatch(r"[a-z0-9]+", p) for p in parts[1:]) and len(parts) > 1:
        return "".join(p[0].upper() + p[1:] for p in parts)
    if not name[0].isupper():
        name = MIDDLE.sub(lambda m: m.group(1) + "_" + m.group(2).lower() if m.group(2) != "T" else m.group(0), name)
    return name.replace("-", "_")


def outside_strings(text, rust):
    """The text in pieces: (piece, whether names in it are turned)."""
    if not rust:
        return [(text, True)]
    pieces, at = [], 0
    for m in re.finditer(r'"(?:[^"\\\n]|\\.)*"', text):
        pieces += [(text[at : m.start()], True), (m.group(0), False)]
        at = m.end()
    return pieces + [(text[at:], True)]


def turned(path, text, table, kept):
    def word(m):
        w = m.group(0)
        if w not in table or w in kept:
            return w
        if text_now[max(0, m.start() - 5) : m.start()].endswith("goal."):
            return w
        return table[w]

    out = []
    for text_now, turn in outside_strings(text, not path.endswith(".antt")):
        out.append(WORD.sub(word, text_now) if turn else text_now)
    return "".join(out)


def main(argv):
    look = "--look" in argv
    kinds = declared(".")
    table = {n: spelled(n) for n in kinds if spelled(n) != n}
    every, kept = set(), {}
    for path in files("."):
        text = read(path)
        if path.endswith(".antt"):
            kept[path] = {m.group(3) for m in DECLARED.finditer(text) if m.group(5).startswith("goal.")}
            for m in re.finditer(r"^use ([^\s{]+)\.\{([^}]*)\}", text, re.M):
                if not re.match(r"Rattle\.(?!std\b)", m.group(1)):
                    kept[path] |= set(re.split(r"[,\s]+", m.group(2))) & set(table)
            text = "\n".join(l for l in text.splitlines() if not l.lstrip().startswith("--"))
        every |= set(WORD.findall(text))
    bad = 0
    seen = {}
    for old, new in sorted(table.items()):
        if new in seen:
            print(f"fall together: {seen[new]} and {old} as {new}")
            bad += 1
        seen[new] = old
        if new in every and new not in SHARED:
            print(f"taken: {old} as {new}")
            bad += 1
    for path, names in sorted(kept.items()):
        for n in sorted(names & set(table)):
            print(f"stays: {n} in {path}")
    print(f"{len(table)} names")
    if look or bad:
        return 1 if bad else 0
    changed = 0
    for path in files("."):
        text = read(path)
        new = turned(path, text, table, kept.get(path, set()))
        if new != text:
            changed += 1
            with open(path, "w", encoding="utf-8") as f:
                f.write(new)
    for folder in (".", "docs"):
        for n in sorted(os.listdir(folder)):
            if n.endswith(".md") and n != "PORT.md":
                path = os.path.join(folder, n)
                text = read(path)
                new = re.sub(r"`[^`\n]*`", lambda m: turned("x.antt", m.group(0), table, set()), text)
                if new != text:
                    changed += 1
                    with open(path, "w", encoding="utf-8") as f:
                        f.write(new)
    print(f"{changed} files")
    return 0


if __name__ == "__main__":
    raise SystemExit(main(sys.argv[1:]))
