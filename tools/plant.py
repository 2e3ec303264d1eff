#!/usr/bin/env python3
"""Plants bugs in the functions of a crate and sees which clause of a contract refuses each.

    tools/plant.py [--most N] [--public] [--only FUNCTION] [--list] CRATE...

A bug is a small edit of one line of a function's body that keeps the shape of the code: another comparison, constant,
operand, variant, value or order of arguments, a dropped statement, a missed case, a call made twice. At most N are planted in a function (default
8), as different from each other as there are; edits that do not compile are passed over. A function is proved from its
own body and the contracts of what it calls, so one check tries one bug in each function of the crate at once, and a bug
that seems to be proved is tried again alone. This is done by `rt check` on a copy of the repository in a folder for
temporary files. (`rt plant` tries bugs of other sorts: bodies that give up, and calls whose arguments or result differ.)

Prints a line for each bug, as JSON: where it stands, what it was and became, the verdict, and what refused it: the
clause or step that does not close, or the place in the proof that no longer fits. `shown` says that the check gave values
for which the clause fails. A bug that is still `proved` is one to look at: either the edit changes nothing that the
function does, or a contract is too weak.
"""
import argparse
import atexit
import json
import os
import re
import shutil
import subprocess
import sys
import tempfile

ROOT = os.path.dirname(os.path.dirname(os.path.abspath(__file__)))

HEAD = re.compile(r"^(\s*)(pub(?:\([a-z]+\))? )?(?:const )?fn (\w+)")
BLOCK = re.compile(r"^impl(?:<[^>]*>+)? (?:(?:\w+::)*(\w+)(?:<(\w+)>)? for )?(\w+)(?:<.*>)? \{$")


class Function:
    def __init__(self, path, name, public, start, first, last):
        self.path, self.name, self.public = path, name, public
        self.start, self.first, self.last = start, first, last


def functions(path, lines):
    """The functions of a file with the lines of their bodies; tests are left out."""
    found, owner, shared, at = [], "", False, 0
    while at < len(lines):
        line = lines[at]
        if line.startswith("#[cfg(test)]"):
            break
        block = BLOCK.match(line)
        if block:
            # the check names an impl of a trait by the type, the trait and what the trait is of
            trait, of, name = block.groups(default="")
            owner, shared = name + trait + of + "::", trait != ""
        elif line.startswith("}"):
            owner, shared = "", False
        head = HEAD.match(line)
        if not head:
            at += 1
            continue
        indent, start = head.group(1), at
        while not (lines[at] == indent + "{" or lines[at].endswith(" {") or lines[at].endswith(";")):
            at += 1
        if lines[at].endswith(";") and not lines[at].endswith("{"):
            at += 1
            continue
        first = at + 1
        while lines[at] != indent + "}":
            at += 1
        found.append(Function(path, owner + head.group(3), shared or head.group(2) == "pub ", start, first, at))
        at += 1
    return found


EXCHANGES = [
    ("comparison", r" <= ", [" < "]),
    ("comparison", r" < ", [" <= "]),
    ("comparison", r" >= ", [" > "]),
    ("comparison", r" > ", [" >= "]),
    ("comparison", r" == ", [" != "]),
    ("comparison", r" != ", [" == "]),
    ("connective", r" && ", [" || "]),
    ("connective", r" \|\| ", [" && "]),
    ("operator", r" \+ ", [" - "]),
    ("operator", r" - ", [" + "]),
    ("operator", r" \* ", [" + "]),
    ("operator", r" / ", [" % "]),
    ("operator", r" % ", [" / "]),
    ("operator", r" >> ", [" << "]),
    ("operator", r" << ", [" >> "]),
    ("operator", r" & ", [" | "]),
    ("operator", r" \+= ", [" = "]),
    ("operator", r" -= ", [" = "]),
    ("operator", r" \|= ", [" = "]),
    ("constant", r"(?<![\w.])\d[\d_]*(?![\w.])", None),
    ("truth", r"\btrue\b", ["false"]),
    ("truth", r"\bfalse\b", ["true"]),
    ("truth", r"(?<![\w])!(?=[\w(])", [""]),
    ("operand", r"\bleft\b", ["right"]),
    ("operand", r"\bright\b", ["left"]),
    ("operand", r"(?<=\.)a\b", ["b"]),
    ("operand", r"(?<=\.)b\b", ["a"]),
    ("operand", r"\brise\b", ["fall"]),
    ("operand", r"\bfall\b", ["rise"]),
    ("operand", r"\bfrom\b(?!_)", ["to"]),
    ("operand", r"\bto\b(?!_)", ["from"]),
    ("operand", r"\bstart\b", ["end"]),
    ("operand", r"\bend\b", ["start"]),
    ("operand", r"\bunit\b", ["desk"]),
    ("operand", r"\bword\b", ["ticks"]),
    ("operand", r"\bticks\b", ["word"]),
    ("call", r"\bmin\b", ["max"]),
    ("call", r"saturating_sub", ["saturating_add"]),
    ("call", r"saturating_add", ["saturating_sub"]),
    ("call", r"checked_mul", ["checked_add"]),
    ("call", r"to_be_bytes", ["to_le_bytes"]),
    ("call", r"from_be_bytes", ["from_le_bytes"]),
    ("call", r"is_some", ["is_none"]),
    ("call", r"\bclear\b(?=\()", ["look"]),
]


def arguments(text, at):
    """The arguments of the bracket at a place of the text: their spans, if it closes on this line."""
    close = {"(": ")", "[": "]", "{": "}"}
    depth, spans, begin = 0, [], at + 1
    for i in range(at, len(text)):
        c = text[i]
        if c in "([{":
            depth += 1
        elif c in ")]}":
            depth -= 1
            if depth == 0:
                if text[begin:i].strip():
                    spans.append((begin, i))
                return spans if c == close[text[at]] else []
        elif c == "," and depth == 1:
            spans.append((begin, i))
            begin = i + 1
    return []


def edits_of_line(text, variants, letters):
    """(kind, new text) for each bug of a line."""
    code = text.split(" //")[0]
    if not code.strip() or code.strip().startswith("//"):
        return
    for kind, pattern, becomes in EXCHANGES:
        for hit in re.finditer(pattern, code):
            if becomes is None:
                number = int(hit.group().replace("_", ""))
                for other in (number + 1,):
                    yield kind, text[: hit.start()] + str(other) + text[hit.end() :]
            else:
                for other in becomes:
                    yield kind, text[: hit.start()] + other + text[hit.end() :]
    # another variant of an enum, another letter
    for hit in re.finditer(r"\b([A-Z]\w+)::([A-Z]\w*)\b(?!::)", code):
        for other in variants.get(hit.group(1), []):
            if other != hit.group(2):
                yield "variant", text[: hit.start(2)] + other + text[hit.end(2) :]
    for hit in re.finditer(r"b?'[A-Za-z ]'", code):
        for other in letters:
            if other != hit.group() and other.startswith("b") == hit.group().startswith("b"):
                yield "letter", text[: hit.start()] + other + text[hit.end() :]
                break
    # two neighbouring arguments the other way round
    for i, c in enumerate(code):
        if c in "([" and i and (code[i - 1].isalnum() or code[i - 1] in "_>([ "):
            spans = arguments(code, i)
            for (a, b), (p, q) in zip(spans, spans[1:]):
                x, y = code[a:b].strip(), code[p:q].strip()
                if x != y and ":" not in x.replace("::", "") and ":" not in y.replace("::", ""):
                    swapped = code[:a] + code[a:b].replace(x, y, 1) + code[b:p] + code[p:q].replace(y, x, 1) + code[q:]
                    yield "order", swapped + text[len(code) :]
    # an alternative of a pattern that is missed
    for hit in re.finditer(r" \| (?:[\w:]+(?: \{[^}]*\})?|b?'.')(?=[ ,)\]]|$)", code):
        yield "missed case", text[: hit.start()] + text[hit.end() :]
    # a condition that never holds, a statement that is not there, nothing for something
    hit = re.match(r"(\s*(?:\} else )?if )(?!let )(.*)( \{.*)$", code)
    if hit:
        yield "missed case", hit.group(1) + "false && (" + hit.group(2) + ")" + hit.group(3)
        yield "missed case", hit.group(1) + "true || (" + hit.group(2) + ")" + hit.group(3)
    if re.match(r"\s*(?!let |return|break|use |const )[\w.*\[\]() ]+(?:\(.*\)\??| [-+|]?= .*);$", code):
        yield "dropped", re.match(r"\s*", code).group() + ";"
    hit = re.match(r"(\s*(?:.*=> )?)Some\((.*)\)(,?)$", code)
    if hit and "=>" not in hit.group(2):
        yield "nothing", hit.group(1) + "None" + hit.group(3)


def other_values(expression, reply):
    """Expressions of the same type with another value."""
    if re.fullmatch(r"u\d+|usize", reply):
        if expression == "0":
            return ["1"]
        return [f"({expression}).wrapping_add(1)", f"({expression}).wrapping_sub(1)", f"({expression}) / 2", "0"]
    if reply == "bool":
        return [f"!({expression})", "true", "false"]
    if reply.startswith("Option<"):
        return ["None"]
    return []


def edits_of_arguments(text, alters):
    """Another value for an argument that is a name; and, where something lent is altered, a call that is made twice."""
    code = text.split(" //")[0]
    for i, c in enumerate(code):
        if c == "(" and i and (code[i - 1].isalnum() or code[i - 1] in "_>"):
            for a, b in arguments(code, i):
                given = code[a:b].strip()
                if not re.fullmatch(r"(?:&mut |&|\*)?[a-z_][\w.]*", given) or given == "self":
                    continue
                bare = re.sub(r"^(?:&mut |&)", "", given)
                for other in (f"{bare}.wrapping_add(1)", f"{bare} / 2", "0", f"!{bare}", f"&{bare}[..0]", f"&mut {bare}[..0]"):
                    yield "argument", code[:a] + code[a:b].replace(given, other, 1) + code[b:] + text[len(code) :]
    call = re.fullmatch(r"(\s*)((?:\w+\.|\w+::)*\w+(?:::<[^(]*>)?\(.*\))(;?)", code)
    if call and alters and call.group(3):
        yield "twice", f"{call.group(1)}{call.group(2)}; {call.group(2)};"
    elif call and alters:
        yield "twice", f"{call.group(1)}{{ let _ = {call.group(2)}; {call.group(2)} }}"


def edits_of_reply(function, lines, at):
    """Another reply, where the body's last line is the reply, and another value in a field of a literal."""
    indent = re.match(r"\s*", lines[at]).group()
    text = lines[at].strip()
    reply = re.search(r"-> (.*?)(?: \{)?$", "\n".join(lines[function.start : function.first]), re.M)
    if at == function.last - 1 and reply and not re.search(r"[;{}]$", text):
        for other in other_values(text, reply.group(1)):
            yield "reply", indent + other
    field = re.fullmatch(r"(\w+): (.*),", text)
    if field:
        for reply in ("u32", "bool", "Option<"):
            for other in other_values(field.group(2), reply):
                yield "value", indent + field.group(1) + ": " + other + ","


def bugs(function, lines, variants, letters):
    for at in range(function.first, function.last):
        seen = set()
        edits = list(edits_of_line(lines[at], variants, letters)) + list(edits_of_reply(function, lines, at))
        edits += edits_of_arguments(lines[at], "&mut " in "".join(lines[function.start : function.first]))
        for kind, new in edits:
            if new != lines[at] and new not in seen:
                seen.add(new)
                yield {"kind": kind, "line": at, "old": lines[at], "new": new}


def variants_of(texts):
    found = {}
    for text in texts:
        for hit in re.finditer(r"\b([A-Z]\w+)::([A-Z]\w*)\b(?!::)", text):
            names = found.setdefault(hit.group(1), [])
            if hit.group(2) not in names:
                names.append(hit.group(2))
    return found


def spread(found, most):
    """At most so many of the bugs, the kinds in turn and spread over the lines."""
    by_kind = {}
    for bug in found:
        by_kind.setdefault(bug["kind"], []).append(bug)
    queues = []
    for kind in sorted(by_kind, key=lambda k: (k in ("order", "operand"), -len(by_kind[k]))):
        items = by_kind[kind]
        step = max(1, len(items) // max(1, most // 2))
        queues.append(items[::step] + [b for i, b in enumerate(items) if i % step])
    while queues and most > 0:
        for queue in list(queues):
            if not queue:
                queues.remove(queue)
            else:
                yield queue.pop(0)


def source_files(crate_dir):
    for folder, _, names in os.walk(os.path.join(crate_dir, "src")):
        for name in sorted(names):
            if name.endswith(".rt") and name != "tests.rt":
                yield os.path.join(folder, name)


def workplace():
    """A copy of the repository, outside the checkout."""
    place = tempfile.mkdtemp(prefix="planted-")
    atexit.register(shutil.rmtree, place, ignore_errors=True)
    shutil.copytree(os.path.join(ROOT, "crates"), os.path.join(place, "crates"), ignore=shutil.ignore_patterns("out"))
    shutil.copy(os.path.join(ROOT, "crates.txt"), place)
    return place


def check(place, crate):
    folder = os.path.join(place, "crates", crate)
    done = subprocess.run(["rt", "check"], cwd=folder, stdout=subprocess.PIPE, stderr=subprocess.STDOUT, text=True)
    return done.stdout


def answer_at(path, line):
    """The answer of a file of proofs that a line belongs to."""
    name = ""
    with open(path) as f:
        for text in f.read().split("\n")[:line]:
            hit = re.match(r"(?:abbrev )?(?:pub )?([\w-]+) :", text)
            if hit:
                name = hit.group(1)
    return name


class Crate:
    """A crate in a copy of the repository, and the functions in which bugs are planted."""

    def __init__(self, place, name, only):
        self.place, self.name = place, name
        self.folder = os.path.join(place, "crates", name)
        self.texts = {path: open(path).read() for path in source_files(self.folder)}
        variants = variants_of(self.texts.values())
        letters = list(dict.fromkeys(hit for t in self.texts.values() for hit in re.findall(r"b?'[A-Z]'", t)))
        self.functions, self.queues = [], {}
        for path, text in self.texts.items():
            lines = text.split("\n")
            for function in functions(path, lines):
                if only in function.name:
                    self.functions.append(function)
                    self.queues[function] = list(spread(bugs(function, lines, variants, letters), 10_000))

    def own(self, path):
        return os.path.relpath(path, self.folder)

    def full_name(self, function):
        module = self.own(function.path)[len("src/") : -len(".rt")].replace("/", "::")
        return self.name + "::" + ("" if module in ("lib", "main") else module + "::") + function.name

    def is_public(self, function):
        """Whether others can call it: its module is public too."""
        module = self.own(function.path)[len("src/") : -len(".rt")]
        root = next((text for path, text in self.texts.items() if self.own(path) == "src/lib.rt"), "")
        return function.public and (module == "lib" or re.search(rf"^pub mod {module};", root, re.M) is not None)

    def reach(self):
        """For each function those of the crate that it calls, and what they call, itself among them."""
        direct = {}
        for function in self.functions:
            body = "\n".join(self.texts[function.path].split("\n")[function.first : function.last])
            called = set(re.findall(r"\b(\w+)(?:::<[^(]*>)?\(", body))
            direct[function] = {f for f in self.functions if f.name.split("::")[-1] in called}
        found = {}
        for function in self.functions:
            found[function], todo = {function}, [function]
            while todo:
                for other in direct[todo.pop()] - found[function]:
                    found[function].add(other)
                    todo.append(other)
        return found

    def write(self, planted):
        """The sources with one bug in each of these functions."""
        for path, text in self.texts.items():
            lines = text.split("\n")
            for function, bug in planted.items():
                if function.path == path:
                    lines[bug["line"]] = bug["new"]
            with open(path, "w") as f:
                f.write("\n".join(lines))

    def not_compiled(self, output, planted):
        """The functions whose bugs do not compile."""
        found = set()
        for path, line in re.findall(r"^(\S+?\.rt):(\d+):\d+: error", output, re.M):
            for function in planted:
                if os.path.realpath(os.path.join(self.folder, path)) == os.path.realpath(function.path) and function.start < int(line) <= function.last + 1:
                    found.add(function)
        return found

    def judged(self, function, output):
        """What the check says of a function with a bug: the verdict, its reasons, and whether values were shown."""
        # (a method goes by the module of its type, which may be another than that of its impl)
        name = re.escape(self.full_name(function))
        other = rf"{self.name}::(?:\w+::)+{re.escape(function.name)}"
        line = re.search(rf"^fn {name}: (.*)$", output, re.M) or re.search(rf"^fn {other}: (.*)$", output, re.M)
        if not line:
            return "untold", [], False
        reasons, folder = [], self.full_name(function)[len(self.name) + 2 :].replace("::", "/")
        open_goals = re.search(r"did not prove (.*?)(?:; it calls|$)", line.group(1))
        if open_goals:
            reasons = re.findall(r"`([^`]+)`", open_goals.group(1))
        for path, at in re.findall(rf"^(\S+/proofs/\+?{re.escape(folder)}/\w+\.antt):(\d+):\d+: error", output, re.M):
            reasons.append("proof of " + answer_at(os.path.join(self.folder, path), int(at)))
        shown = re.search(rf"of proofs/{re.escape(folder)}/Answers.antt may be false", output) is not None
        if reasons:
            return "refused", list(dict.fromkeys(reasons)), shown
        if line.group(1).startswith("proved") or re.match(r"(?:no proof|not proved): it calls", line.group(1)):
            return "proved", [], False
        return "refused", [line.group(1)[:120]], shown

    def tried(self, planted):
        """Tries these bugs together: (function, bug, verdict, reasons, shown) for each that compiles."""
        while planted:
            self.write(planted)
            output = check(self.place, self.name)
            if re.search(r"^logic=", output, re.M):
                break
            wrong = self.not_compiled(output, planted)
            if not wrong and len(planted) > 1:
                # the compiler stopped at something that no line tells: each half alone
                halves = list(planted.items())
                for half in (halves[: len(halves) // 2], halves[len(halves) // 2 :]):
                    yield from self.tried(dict(half))
                return
            for function in wrong or list(planted):
                del planted[function]
        for function, bug in planted.items():
            verdict = self.judged(function, output)
            if verdict[0] != "refused" and len(planted) > 1:
                yield from self.tried({function: bug})
            else:
                yield (function, bug, *verdict)

    def next_bugs(self, wanting):
        """One more bug for each of these functions, if it has one; those that do not compile are found by the check."""
        return {function: self.queues[function].pop(0) for function in wanting if self.queues[function]}

    def rows(self, most):
        counts = dict.fromkeys(self.functions, 0)
        while True:
            planted = self.next_bugs([function for function in self.functions if counts[function] < most])
            if not planted:
                return
            for function, bug, verdict, reasons, shown in self.tried(planted):
                counts[function] += 1
                yield {
                    "crate": self.name,
                    "file": self.own(function.path),
                    "function": function.name,
                    "public": function.public,
                    "kind": bug["kind"],
                    "line": bug["line"] + 1,
                    "old": bug["old"].strip(),
                    "new": bug["new"].strip(),
                    "verdict": verdict,
                    "by": reasons,
                    "shown": shown,
                }


def main():
    words = argparse.ArgumentParser(description=__doc__, formatter_class=argparse.RawDescriptionHelpFormatter)
    words.add_argument("--most", type=int, default=8, help="bugs in a function")
    words.add_argument("--only", default="", help="functions with this in their name")
    words.add_argument("--public", action="store_true", help="only in the public functions themselves")
    words.add_argument("--list", action="store_true", help="only say how many edits there are in each function")
    words.add_argument("crates", nargs="+")
    given = words.parse_args()
    place = ROOT if given.list else workplace()
    for name in given.crates:
        crate = Crate(place, name, given.only)
        if given.list:
            for function in crate.functions:
                print(crate.full_name(function), len(crate.queues[function]))
            continue
        if given.public:
            crate.functions = [function for function in crate.functions if crate.is_public(function)]
        if not re.search(r"^logic=proved", check(place, name), re.M):
            sys.exit(f"plant: {name} is not proved before any bug is planted")
        for row in crate.rows(given.most):
            print(json.dumps(row, ensure_ascii=False), flush=True)
        crate.write({})


if __name__ == "__main__":
    main()
