#!/usr/bin/env python3
"""Counts the places of the points of docs/DESIGN-PASS.md in crates/*/src: tools/places.py [--list] [POINT ..] [--at FOLDER]"""

import collections
import glob
import os
import re
import sys

ITEM = re.compile(r"^(?:pub )?(?:const )?(fn|struct|enum) (\w+)", re.M)


def sources(top):
    for path in sorted(glob.glob(os.path.join(top, "crates/*/src/**/*.rt"), recursive=True)):
        yield os.path.relpath(path, os.path.join(top, "crates")), open(path, encoding="utf-8").read()


def block(text, at):
    """The text between the first brace at or behind `at` and its partner, clauses passed over."""
    at = re.compile(r"^\s*\{$|\{\s*$", re.M).search(text, at)
    if not at:
        return ""
    start = at.end()
    depth, i = 1, start
    while depth and i < len(text):
        depth += {"{": 1, "}": -1}.get(text[i], 0)
        i += 1
    return text[start : i - 1]


class Function:
    def __init__(self, file, name, head, body):
        self.file, self.name, self.body = file, name, body
        flat = re.sub(r"\s+", " ", head)
        signature = re.split(r" (?:requires|ensures) ", flat)[0]
        inside = re.search(r"\((.*)\)(?: -> (.*))?$", signature.strip(" {"))
        self.parameters = [p.strip() for p in re.split(r",(?![^\[<(]*[\]>)])", inside.group(1)) if p.strip()] if inside else []
        self.result = (inside.group(2) or "") if inside else ""
        self.requires = re.findall(r"requires (?:\w+ )?\{(.*?)\}(?= requires| ensures| \{|$)", flat)

    def __str__(self):
        return f"{self.file}: {self.name}"


def functions(top):
    found = []
    for file, text in sources(top):
        text = re.sub(r"//.*", "", text)
        for m in re.finditer(r"^ *(?:pub )?fn (\w+)", text, re.M):
            indent = len(m.group(0)) - len(m.group(0).lstrip())
            end = re.compile(rf"^ {{{indent}}}\}}", re.M).search(text, m.end())
            whole = text[m.start() : end.start() if end else len(text)]
            opening = re.search(rf"^ {{{indent}}}\{{$|\{{$", whole, re.M)
            if opening:
                found.append(Function(file, m.group(1), whole[: opening.start()], whole[opening.end() :]))
    return found


def types(top, kind):
    for file, text in sources(top):
        text = re.sub(r"//.*", "", text)
        for m in re.finditer(rf"((?:^#\[.*\]\n)*)^(?:pub )?{kind} (\w+)[^{{;]*\{{", text, re.M):
            yield file, m.group(2), block(text, m.end() - 1), m.group(1)


def point_1(top, fs):
    for file, name, body, _ in types(top, "enum"):
        cases = [c.strip() for c in re.split(r",(?![^(]*\))", body) if c.strip()]
        if 2 <= len(cases) <= 3 and any("(" in c for c in cases):
            yield "enum of the shape of Option or Result", f"{file}: {name}"
    for file, name, body, marks in types(top, "struct"):
        if re.search(r"\b(number|found): (u8|bool)", body):
            yield "a number beside values" + (", exported" if "repr(C)" in marks else ""), f"{file}: {name}"
    for f in fs:
        if f.result == "Number" or (f.result == "u8" and "number" in f.name):
            yield "a function that gives a number", str(f)
    for file, text in sources(top):
        for line in re.findall(r"^.*\b(?:number|early|told)(?:\(\))? (?:==|!=) (?:0|number_of|u8::from).*$", text, re.M):
            yield "a number asked whether it is 0 or another", f"{file}: {line.strip()}"
        for line in re.findall(r"^(?:pub )?const \w+: u8 = \d+;", text, re.M):
            yield "a constant that is a kind or an octet", f"{file}: {line}"


def shape(body):
    body = re.sub(r"\s+", " ", body)
    body = re.sub(r"\b\w+\b", lambda m: m.group(0) if m.group(0) in {"if", "else", "match", "while", "for", "return", "let", "mut", "true", "false"} else "x", body)
    return body.strip()


def point_2(top, fs):
    groups = collections.defaultdict(list)
    for f in fs:
        if f.body.count("\n") >= 3 or (f.body.count("\n") >= 1 and "if" in f.body):
            groups[shape(f.body)].append(f)
    for same in groups.values():
        if len(same) > 1:
            yield "functions of one shape", "; ".join(map(str, same))


def point_3(top, fs):
    for file, text in sources(top):
        for line in re.findall(r"^\s*(?:while|loop)\b.*$", text, re.M):
            yield "a loop that counts by hand", f"{file}: {line.strip()}"


def point_4(top, fs):
    for f in fs:
        body = f.body.strip()
        if f.name.startswith("same_") or f.name == "is_same":
            yield "equality by hand", str(f)
        elif re.match(r"match \w+ \{[^{}]*\}$", body) and f.result == "bool":
            yield "a test of an enum by all its cases", str(f)
        elif re.match(r"match \w+ \{[^{}]*\}$", body) and re.match(r"u8|u16|u32", f.result):
            yield "a conversion to a number", str(f)
        elif f.name in ("kind_of", "exchange_of", "event_of", "ask_of", "clone_ask_of", "packet_of", "looked_up"):
            yield "a conversion", str(f)
        elif not f.parameters and f.result and f.result[0].isupper():
            yield "a value of zeros", str(f)


def point_5(top, fs):
    facts = collections.Counter()
    for f in fs:
        for fact in {x.strip(" ()") for r in f.requires for x in r.split("×")}:
            facts[fact] += 1
    for fact, n in facts.items():
        if n >= 3:
            yield "a fact that three functions and more ask", f"{n}: {fact}"
    groups = collections.Counter()
    for f in fs:
        names = [p for p in f.parameters if ":" in p and not p.startswith("self")]
        for i in range(len(names) - 2):
            groups[", ".join(names[i : i + 3])] += 1
    for group, n in groups.items():
        if n >= 3:
            yield "three parameters side by side in three functions and more", f"{n}: {group}"


def point_6(top, fs):
    arrays = re.compile(r"\[.*; ?(\w+)\]")
    for f in fs:
        sizes = [m.group(1) for p in f.parameters if (m := arrays.search(p))]
        if len(sizes) != len(set(sizes)):
            yield "parallel arrays", str(f)
        elif sizes and any(re.match(r"(n|count|len|length|size): (usize|u16)", p) for p in f.parameters):
            yield "an array with its length beside it", str(f)
    for file, name, body, marks in types(top, "struct"):
        if arrays.search(body) and re.search(r"\b(count|length|len): ", body):
            yield "a struct of an array and its length" + (", exported" if "repr(C)" in marks else ""), f"{file}: {name}"


def point_7(top, fs):
    for f in fs:
        for p in f.parameters:
            if p.endswith(": bool") and re.search(rf"if !?{p[:-6]} \{{\s*\w+\(", f.body):
                yield "a flag that says which call is made", f"{f}: {p[:-6]}"


def point_8(top, fs):
    for path in sorted(glob.glob(os.path.join(top, "crates/*/proofs/**/Answers.antt"), recursive=True)):
        n = len(re.findall(r"^pub \S+ : goal\.", open(path, encoding="utf-8").read(), re.M))
        yield "a file of answers", f"{os.path.relpath(path, os.path.join(top, 'crates'))}: {n}"


def main(words):
    top = os.path.dirname(os.path.dirname(os.path.abspath(__file__)))
    if "--at" in words:
        top = words[words.index("--at") + 1]
        words = [w for i, w in enumerate(words) if w != "--at" and words[i - 1] != "--at"]
    wanted = [w for w in words if w.isdigit()] or [str(i) for i in range(1, 9)]
    fs = functions(top)
    for point in wanted:
        places = list(globals()[f"point_{point}"](top, fs))
        kinds = collections.Counter(kind for kind, _ in places)
        print(f"point {point}: {len(places)}")
        for kind, n in kinds.items():
            print(f"  {n:4} {kind}")
            if "--list" in words:
                for k, place in places:
                    if k == kind:
                        print(f"         {place}")


main(sys.argv[1:])
