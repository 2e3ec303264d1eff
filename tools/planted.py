#!/usr/bin/env python3
"""Tables of planted bugs, in Markdown, from what tools/plant.py printed.

    tools/planted.py calls FILE...    a row for each public call: how many bugs were planted in it and in what it calls
                                      within its crate, and which clauses refused them
    tools/planted.py bugs FILE...     every bug: its function, the edit, and what refused it
"""
import json
import os
import re
import sys

sys.path.insert(0, os.path.dirname(os.path.abspath(__file__)))
import plant


def read(paths):
    rows = []
    for path in paths:
        with open(path) as lines:
            rows += [json.loads(line) for line in lines]
    return rows


def clause(reason):
    """What refused a bug, in a few words."""
    if reason.startswith("proof of"):
        return "proof, " + (reason[len("proof of ") :] or "its steps")
    return reason


def refused_by(row):
    if row["verdict"] != "refused":
        return row.get("why", "**" + row["verdict"] + "**")
    return ", ".join(clause(reason) for reason in row["by"][:2]) + (", …" if len(row["by"]) > 2 else "")


def shortened(old, new):
    """The part of a line that changed, with the words around it."""
    start = 0
    while start < min(len(old), len(new)) and old[start] == new[start]:
        start += 1
    end = 0
    while end < min(len(old), len(new)) - start and old[-1 - end] == new[-1 - end]:
        end += 1
    left = max(0, start - 18)
    right_old, right_new = len(old) - end, len(new) - end
    more = min(end, 14)
    before = ("…" if left else "") + old[left:start]
    after = old[right_old : right_old + more] + ("…" if more < end else "")
    return before + old[start:right_old] + after, before + new[start:right_new] + after


def code(text):
    return "`" + text.replace("|", "\\|").strip() + "`" if text.strip(" ;") else "nothing"


HEAD = """# Planted bugs, one by one

Each row is a bug that was planted alone in one line of a function, and what the check then could not prove of that function: a clause of its contract on some way to its end (`returns`, `returns-in-Some`, `…-clause-NAME`), a step that must be safe or must keep a loop's invariant (`…-requires`, `loop-…`, `add-…`), or the answer in its proof that no longer fits (`proof, …`). A bug in a private function is refused by that function's own contract, on which the public ones rest. `make plant` makes such a list for a crate (`tools/plant.py`, `tools/planted.py`).

A bug that was not refused is marked, with the reason why it is none: the function does the same with it.
"""


def bugs(rows):
    print(HEAD, end="")
    for crate in dict.fromkeys(row["crate"] for row in rows):
        own = [row for row in rows if row["crate"] == crate]
        print(f"\n## {crate}: {len(own)} bugs\n")
        print("| Function | Was | Became | Refused by |\n|---|---|---|---|")
        for name in dict.fromkeys(row["function"] for row in own):
            for row in own:
                if row["function"] == name:
                    was, became = shortened(row["old"], row["new"])
                    print(f"| {code(name)} | {code(was)} | {code(became)} | {refused_by(row)} |")


def calls(rows):
    print("| Public call | Bugs | Refused | With values shown | Refusing clauses and steps |\n|---|---|---|---|---|")
    for crate in dict.fromkeys(row["crate"] for row in rows):
        made = plant.Crate(plant.ROOT, crate, "")
        reach = made.reach()
        for function in made.functions:
            if not made.is_public(function):
                continue
            names = {made.full_name(f) for f in reach[function]}
            own = [row for row in rows if row["crate"] == crate and row_name(row) in names]
            if not own:
                continue
            reasons = {}
            for row in own:
                for reason in row["by"][:1]:
                    word = re.sub(r"-\d+$", "", clause(reason))
                    reasons[word] = reasons.get(word, 0) + 1
            best = sorted(reasons, key=lambda w: (w.startswith("proof"), -reasons[w]))[:5]
            refused = sum(row["verdict"] == "refused" for row in own)
            shown = sum(row["shown"] for row in own)
            print(f"| {code(made.full_name(function))} | {len(own)} | {refused} | {shown} | {', '.join(best)} |")


def row_name(row):
    module = row["file"][len("src/") : -len(".rt")].replace("/", "::")
    return row["crate"] + "::" + ("" if module in ("lib", "main") else module + "::") + row["function"]


if __name__ == "__main__":
    {"bugs": bugs, "calls": calls}[sys.argv[1]](read(sys.argv[2:]))
