#!/usr/bin/env python3
"""Counts the places in crates/*/src where an older form of Rattle could stand.

usage: tools/forms.py [--list] [--folder FOLDER] [POINT]

POINT is 1 to 8, as docs/DESIGN-PASS.md numbers them; without one all are counted. --list prints each place.
"""
import argparse
import glob
import os
import re
from collections import defaultdict

FN = re.compile(r"(?m)^( *)(?:pub )?(?:unsafe )?(?:extern \"C\" )?fn (\w+)")
WORD = re.compile(r"[A-Za-z_]\w*|\d\w*|\S")
KEEP = {"fn", "let", "mut", "if", "else", "while", "for", "in", "return", "match", "usize", "u64", "u16", "u32", "u8", "bool", "true", "false", "as", "self", "pub"}
CODE = r"\b(?:kind|flow|mode|role|code|calls|end)\b\)? *(?:==|!=|<=|<) *(?:[0-9]+\b|[A-Z][A-Z_]+\b)"


def sources(folder):
    for path in sorted(glob.glob(os.path.join(folder, "crates/*/src/**/*.rt"), recursive=True)):
        with open(path, encoding="utf-8") as text:
            yield os.path.relpath(path, folder), text.read()


def plain(text):
    """The lines of code: no comments, no clauses, no ghost lines."""
    for number, line in enumerate(text.split("\n"), 1):
        bare = line.split("//", 1)[0]
        if not re.match(r"\s*(requires|ensures|ghost)\b", bare):
            yield number, bare


def functions(text):
    """Each function: its line, its name, its parameters, its clauses, its body."""
    for found in FN.finditer(text):
        end = text.find("\n" + found.group(1) + "}", found.end())
        whole = text[found.start():end if 0 <= end else len(text)]
        body = re.search(r"(?m)^" + found.group(1) + r"\{$|\{$", whole)
        head = whole[:body.start()] if body else whole
        inner = re.search(r"\((.*?)\)(?= *->|\s*\n|\s*$|\s*\{|\s*where)", head, re.S)
        params = [p.strip() for p in re.split(r",(?![^<\[(]*[>\])])", inner.group(1)) if p.strip()] if inner else []
        clauses = re.findall(r"(?m)^\s*(requires|ensures)[^{\n]*\{(.*)\}", head)
        yield text.count("\n", 0, found.start()) + 1, found.group(2), params, clauses, whole[body.end():] if body else ""


def matching(pattern):
    def find(folder):
        for path, text in sources(folder):
            for number, line in plain(text):
                if re.search(pattern, line):
                    yield "%s:%d %s" % (path, number, line.strip())
    return find


def shape(body):
    names, out = {}, []
    for token in WORD.findall(re.sub(r"//.*", "", body)):
        if token in KEEP or not (token[0].isalnum() or token[0] == "_"):
            out.append(token)
        elif token[0].isdigit():
            out.append("0")
        else:
            out.append("n%d" % names.setdefault(token, len(names)))
    return tuple(out)


def twins(folder):
    groups = defaultdict(list)
    for path, text in sources(folder):
        for number, name, _, _, body in functions(text):
            key = shape(body)
            if 24 <= len(key):
                groups[key].append("%s:%d %s" % (path, number, name))
    for group in groups.values():
        if 1 < len(group):
            yield "  ".join(group)


def travelling(folder):
    for path, text in sources(folder):
        for number, name, params, _, _ in functions(text):
            kinds = " ".join(params)
            if re.search(r": &\[u8\]", kinds) and re.search(r": (Layout|RouteLayout|CodeLayout|Section)\b", kinds):
                yield "%s:%d %s" % (path, number, name)


def long_lists(folder):
    for path, text in sources(folder):
        for number, name, params, _, _ in functions(text):
            if 7 < len(params):
                yield "%s:%d %s (%d)" % (path, number, name, len(params))


def repeated_facts(folder):
    facts = defaultdict(set)
    for path, text in sources(folder):
        crate = path.split("/")[1]
        for number, name, _, clauses, _ in functions(text):
            for kind, clause in clauses:
                if kind == "requires":
                    for fact in re.split(r" × ", clause):
                        word = re.match(r"\s*\(?([A-Z]\w+)", fact)
                        if word:
                            facts[crate, word.group(1)].add((path, name))
    for (crate, word), places in sorted(facts.items()):
        if 3 <= len(places):
            yield "%s %s in %d functions" % (crate, word, len(places))


def joined(folder):
    for path, text in sources(folder):
        for number, name, _, clauses, _ in functions(text):
            for kind, clause in clauses:
                if " × " in clause:
                    yield "%s:%d %s %s" % (path, number, name, kind)


def answers(folder):
    for path in sorted(glob.glob(os.path.join(folder, "crates/*/proofs/**/Answers.antt"), recursive=True)):
        with open(path, encoding="utf-8") as text:
            for line in text:
                if re.match(r"pub [^ ]+ : goal\.", line):
                    yield "%s %s" % (os.path.relpath(path, folder), line.split()[1])


POINTS = {
    1: [("own enums", matching(r"^\s*(pub )?enum ")),
        ("a flag beside a value", matching(r"^\s*(pub )?(has_\w+|more|keeps): bool,")),
        ("codes that are compared as numbers", matching(CODE))],
    2: [("functions that differ in names and numbers alone", twins)],
    3: [("while", matching(r"^\s*while ")),
        ("for over numbers", matching(r"^\s*for \w+ in [^{]*\.\."))],
    4: [("comparison and equality by hand", matching(r"fn (compare|same|equal)\w*|^\s*(pub )?enum Order\b")),
        ("conversion by hand", matching(r"fn (form_error|word|\w+_code|code_\w+)\("))],
    5: [("bytes and where their sections stand, side by side", travelling),
        ("more than seven parameters", long_lists),
        ("a fact that three functions or more require", repeated_facts),
        ("several facts in one clause", joined)],
    6: [("slices of numbers that hold records or sets", matching(r"\w+: &(mut )?\[u(16|64)(; \d+)?\]")),
        ("words that hold a graph or hops", matching(r": &(mut )?(Words|Hops)\b"))],
    7: [("a switch on what to do", matching(r"match (kind|what|step|self\.kind)\b"))],
    8: [("answers in proofs/", answers)],
}


def main():
    parser = argparse.ArgumentParser(description=__doc__, formatter_class=argparse.RawDescriptionHelpFormatter)
    parser.add_argument("--list", action="store_true")
    parser.add_argument("point", nargs="?", type=int, choices=sorted(POINTS))
    parser.add_argument("--folder", default=".")
    options = parser.parse_args()
    for point in [options.point] if options.point else sorted(POINTS):
        for title, find in POINTS[point]:
            places = list(find(options.folder))
            print("%d  %5d  %s" % (point, len(places), title))
            if options.list:
                for place in places:
                    print("          " + place)


main()
