#!/usr/bin/env python3
"""Brings the names of this repository's definitions, lemmas and record fields to one spelling: a fact or a type in upper
camel case (CarPrepared), everything else in snake case (first_fault). Names that the checker makes for a proof (goals,
steps, loops) are left. Run once, after the kit's own script; a second run finds nothing.

usage: respell.py [FOLDER]        rewrites crates/ (and the names in backquotes of README.md and docs/) below FOLDER
       respell.py --list [FOLDER] only prints old and new names
"""

import collections
import glob
import os
import re
import sys

WORD = r"[A-Za-z_][\w']*(?:-[\w']+)*"
HEAD = re.compile(
    rf"(?m)^(?P<indent>[ ]*)(?P<marks>(?:(?:abbrev|unfoldable|pub|record|data|ruleset)[ ]+)*)(?P<name>{WORD})"
    r"(?P<rest>[ ]*(?:\([^\n]*?\)[ ]*|\{[^\n]*?\}[ ]*)*:[ ][^\n]*(?:\n[ ]{4,}(?:→|\()[^\n]*)*)"
)

def sources(top, folder):
    return sorted(glob.glob(os.path.join(top, "crates", "*", folder, "**", "*.antt"), recursive=True))


def read(path):
    with open(path, encoding="utf-8") as file:
        return file.read()


def of_a_function(path):
    """Whether a file holds answers or invariants of one function, whose names the checker gives."""
    return os.path.basename(path) in ("Answers.antt", "Invariants.antt", "Proof.antt")


def camel(name):
    return "".join(part[:1].upper() + part[1:] for part in re.split(r"[-_]", name))


def snake(name):
    return name.replace("-", "_")


def respelled(name, is_fact):
    if is_fact:
        return camel(name)
    first, dash, rest = name.partition("-")
    # a lemma on a fact keeps the fact's name before a dash
    if dash and first[:1].isupper():
        return first + "-" + snake(rest)
    if name.startswith(("getD-", "get_or-")):
        return "get_or-" + snake(rest)
    return snake(name)


def names(top):
    """Old and new names of definitions and lemmas, and of record fields."""
    words, fields, made = {}, {}, set()
    functions = collections.defaultdict(set)
    for path in glob.glob(os.path.join(top, "crates", "*", "src", "*.rt")):
        crate = path[len(top):].strip(os.sep).split(os.sep)[1]
        functions[crate] |= set(re.findall(r"\bfn (\w+)", read(path)))
    for path in sources(top, "proofs"):
        if of_a_function(path):
            made |= set(re.findall(rf"\bgoal\.({WORD})", read(path)))
            for group in re.findall(r"\.(?:Goals|Given)\.\{([^}]*)\}", read(path)):
                made |= set(re.findall(WORD, group))
    for folder in ("specs", "proofs"):
        for path in sources(top, folder):
            text = read(path)
            crate = path[len(top):].strip(os.sep).split(os.sep)[1]
            in_record = None
            for line in re.finditer(r"(?m)^.*$", text):
                start = re.match(r"([ ]*)(?:pub )?(?:record|data) ", line[0])
                if start:
                    in_record = len(start[1])
                    continue
                if line[0].strip() and in_record is not None and len(line[0]) - len(line[0].lstrip()) <= in_record:
                    in_record = None
                if in_record is not None:
                    field = re.match(rf"[ ]*(?:pub )?({WORD})[ ]*:[ ]", line[0])
                    if field and "-" in field[1]:
                        fields[field[1]] = snake(field[1])
            for head in HEAD.finditer(text):
                name = head["name"]
                if name in fields or name in made or "record" in head["marks"] and "-" not in name:
                    continue
                is_fact = "record" in head["marks"] or "data" in head["marks"] or re.search(r"Type 0\s*(where)?\s*$", head["rest"].rstrip())
                if "-" in name or (is_fact and "_" in name):
                    new = respelled(name, is_fact)
                    # so that no definition has the name of a function of its crate
                    if folder == "specs" and new in functions[crate]:
                        new += "_lem"
                    if new == name:
                        continue
                    if words.get(name, new) != new:
                        print(f"respell: {name} would get two names: {words[name]} and {new}", file=sys.stderr)
                    words[name] = new
    for name in list(words):
        if name in fields:
            del words[name]
    return words, fields, made


def turned(text, words, fields):
    def word(match):
        before = text[match.start() - 1] if match.start() else ""
        name = match[0]
        if before == ".":
            return fields.get(name, name)
        return words.get(name, fields.get(name, name))

    return re.sub(rf"(?<![\w'\-·]){WORD}", word, text)


def main():
    only_list = "--list" in sys.argv
    rest = [word for word in sys.argv[1:] if word != "--list"]
    top = rest[0] if rest else "."
    words, fields, made = names(top)
    new = collections.Counter(words.values())
    for name, count in new.items():
        if count > 1:
            print(f"respell: two names become {name}: {[old for old in words if words[old] == name]}", file=sys.stderr)
    if only_list:
        for old in sorted(words):
            print("word", old, words[old])
        for old in sorted(fields):
            print("field", old, fields[old])
        return
    files = sources(top, "specs") + sources(top, "proofs")
    for pattern in ("src/*.rt", "must-fail/*.edit"):
        files += sorted(glob.glob(os.path.join(top, "crates", "*", pattern)))
    for path in files:
        old = read(path)
        text = turned(old, words, fields)
        if text != old:
            with open(path, "w", encoding="utf-8") as file:
                file.write(text)
    for path in [os.path.join(top, "README.md")] + sorted(glob.glob(os.path.join(top, "docs", "*.md"))):
        old = read(path)
        text = re.sub(r"`[^`\n]*`", lambda m: turned(m[0], words, fields), old)
        if text != old:
            with open(path, "w", encoding="utf-8") as file:
                file.write(text)


if __name__ == "__main__":
    main()
