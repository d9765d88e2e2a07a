#!/usr/bin/env python3
"""respell.py [--dry] [--names] [FOLDER]: turns the repository's own definitions, lemmas, fields and constructors to snake case.

Run at the top of the repository, after port.py, everything committed. A name counts where a .antt file of specs/ or
proofs/ gives it a signature (definition, lemma, field, constructor, parameter of a module), begins with a small letter
and has a dash between letters or a capital: `readImage` becomes `read_image`, `spell-walk` `spell_walk`. A dash stays where
it joins two names, as in `length-map`: each part is a word of std or a definition of the repository. Types and modules (capital first) stay; so do
goals (`loop-x-preserved`), which the checker names, and names of std that a `use` line brings and no file defines.
Where the new name is taken in a file that uses the old one, a line 'together:' says so; a lemma (dashes) then ends in
`_law`, a definition that a parameter would hide in `_of`, and another definition (capitals) is left: TOGETHER or FILES wants an
entry. --dry writes nothing, --names prints each old and new name. Touches .antt, .rt, must-fail edits, scripts/, and what stands between backticks in .md files.
"""
import os
import re
import shutil
import sys

# old name -> the name to give it, whatever the rules below say: first two fields of which port.py turned some declarations
# and not others
TOGETHER = {
    "first-edge": "first_edge", "first-end": "first_end",
    "not-given": "not_given", "not-routed": "not_routed", "entries-set": "entries_set", "part-put": "part_put",  # fields
    "is-returning": "is_returning",  # the import of that name stands in another file
    "edges-in": "edges_within", "ends-in": "ends_within", "ways-in": "ways_within",  # `edges_in` is a definition
}
# lemmas and names of proofs that a definition's new name meets, by file: these give way
FILES = {
    "addition/proofs/Owners.antt": {"node_at": "node_at_law"},
    "addition/proofs/HopWays.antt": {"node_at": "node_at_law"},
    "addition/proofs/AgainWays.antt": {"node_at": "node_at_law"},
    "addition/proofs/Demand.antt": {"node_at": "node_at_law"},
    "builder/proofs/CountLaws.antt": {"range_size": "range_size_law"},
    "builder/proofs/ExceptionLaws.antt": {"range_size": "range_size_law"},
    "builder/proofs/exceptions/add_handler_edges/Proof.antt": {"range_size": "range_size_law"},
    "graph/proofs/BuiltRuns.antt": {"in_place": "in_place_law"},
    "graph/proofs/rule/covers_table/Proof.antt": {"in_place": "in_place_law"},
    "text/proofs/HopTextLaws.antt": {"told_at": "told_at_law"},
    "text/proofs/hops/hop_line/Proof.antt": {"told_at": "told_at_law"},
    "unwind/proofs/FirstLaws.antt": {"some_IsFirst": "some_first"},
    "unwind/proofs/LowerLaws.antt": {"branch_in": "branch_in_law"},
    "unwind/proofs/PoolLaws.antt": {"node_in": "node_in_law"},
    "unwind/proofs/emit/block/gather_returned/Proof.antt": {"node_in": "node_in_law"},
    "unwind/proofs/SizeLaws.antt": {"to_block": "to_block_law"},
    "unwind/proofs/TrieLaid.antt": {"end_on": "end_on_law"},
    "unwind/proofs/TriePaths.antt": {"same_step": "same_step_law"},
}
# definitions whose new name is a field of a record there and nothing else: no clash
APART = {"nodeIn", "hasTarget"}
# an operator of which port.py turns the uses and not the declaration
OPERATORS = {"◌and-then◌": "◌and_then◌"}

TOKEN = re.compile(r"[^\s(){}\[\].,;:\"`|]+")
BARE = re.compile(r"(?<![^\s(){}\[\],;:\"`|])[^\s(){}\[\].,;:\"`|]+(?![^\s(){}\[\],;:\"`|])")
SIGNATURE = re.compile(
    r"^\s*(?:(?:pub|private|abbrev|unfoldable|opaque)\s+)*([^\s(){}\[\].,;:\"|]+(?:\s+[^\s(){}\[\].,;:\"|]+)*)\s+:(?:\s|$)")
WORDS = {"data", "record", "module", "pub", "where", "abbrev", "unfoldable", "private", "opaque", "use", "mod", "let", "in"}
GOAL = re.compile(r":\s*(?:tie|Goals)\.(?:Need|Goal)?")


KIT = os.environ.get("RATTLE_KIT", os.path.dirname(os.path.dirname(shutil.which("rt") and os.path.realpath(shutil.which("rt")) or "")))
JOINED = set()  # what a dash may join


def snake(name):
    if name in TOGETHER:
        return TOGETHER[name]
    if "-" in name and not re.search("[A-Z]", name) and all(part in JOINED for part in name.split("-")):
        return name
    name = name.replace("getD", "get_or")  # as std names it today
    parts = re.sub(r"(?<=[a-z0-9])([A-Z])", lambda m: "_" + m.group(1).lower(), name)
    parts = re.sub(r"(?<=[^\W_])-(?=[^\W_])", "_", parts)
    return parts


def wanted(name):
    return bool(re.match(r"[a-z⊑◌]", name)) and snake(name) != name and "◌" not in name


def files_of(top):
    for folder, folders, names in os.walk(top):
        folders[:] = sorted(f for f in folders if f not in (".git", "target", "out"))
        for n in sorted(names):
            yield os.path.join(folder, n)


def strip(line):
    return line.split("--", 1)[0] if not line.lstrip().startswith("--") else ""


def main():
    arguments = [a for a in sys.argv[1:] if not a.startswith("--")]
    dry = "--dry" in sys.argv
    top = arguments[0] if arguments else "."
    texts, before = {}, {}
    for path in files_of(top):
        if path.endswith((".antt", ".rt", ".edit", ".md")) or "/scripts/" in path:
            with open(path, encoding="utf-8") as f:
                before[path] = texts[path] = f.read()
            for old, new in OPERATORS.items():
                texts[path] = texts[path].replace(old, new)
            for end, names in FILES.items():
                if path.endswith("/crates/" + end):
                    texts[path] = TOKEN.sub(lambda m: names.get(m.group(0), m.group(0)), texts[path])
    prelude = os.path.join(KIT, "rattle/std/specs/Prelude.antt")
    with open(prelude, encoding="utf-8") as f:
        JOINED.update(n.strip() for group in re.findall(r"\{([^}]*)\}", f.read()) for n in group.split(","))
    for path, text in texts.items():  # definitions of the repository, those of specs/
        if path.endswith(".antt") and "/specs/" in path:
            JOINED.update(re.findall(r"^(?:abbrev|unfoldable) pub (\S+) :", text, re.M))
    JOINED.difference_update({n for n in JOINED if "-" in n or re.search("[A-Z]", n) or len(n) < 2})
    defined, goals = {}, set()
    for path, text in texts.items():
        if not path.endswith(".antt"):
            if path.endswith(".rt"):
                for name in re.findall(r"^ghost use .* as ([a-z][^\s,}]*)", text, re.M):
                    if wanted(name):
                        defined.setdefault(name, path)
            continue
        for line in text.split("\n"):
            line = strip(line)
            m = SIGNATURE.match(line)
            if not m:
                continue
            for name in m.group(1).split():
                if name in WORDS:
                    continue
                if GOAL.search(line):
                    goals.add(name)
                elif wanted(name):
                    defined.setdefault(name, path)
        for name in re.findall(r"[{;]\s*([^\s(){}\[\].,;:\"|]+)\s+:\s", text):  # fields of a record in one line
            if wanted(name):
                defined.setdefault(name, path)
        for name in re.findall(r" as ([a-z][^\s,}]*)", text):  # a name that an import is given
            if wanted(name):
                defined.setdefault(name, path)
        # parameters of modules
        for m in re.finditer(r"^\s*module\s+\S+\s+(.*)", text, re.M):
            for p in re.finditer(r"\(([^():]+):", m.group(1)):
                for name in p.group(1).split():
                    if wanted(name):
                        defined.setdefault(name, path)
    table = {n: snake(n) for n in defined if n not in goals and not n.endswith("-spec")}
    # names that fall together, in a file that uses both
    refused, back = set(), {}
    for old, new in table.items():
        back.setdefault(new, []).append(old)
    for new, olds in back.items():
        if len(olds) > 1:
            print("together: %s -> %s" % (", ".join(sorted(olds)), new))
            refused.update(old for old in olds if "-" in old)
    for path, text in texts.items():
        if not path.endswith((".antt", ".rt")):
            continue
        text = "\n".join(strip(line) if path.endswith(".antt") else line.split("//", 1)[0] for line in text.split("\n"))
        found = set(TOKEN.findall(text))
        bare = set(BARE.findall(text))  # not a part of a path or a projection, which is no name of its own
        for old in found & table.keys():
            if table[old] in bare and not path.endswith(".rt") and old not in APART:
                print("together: %s: %s and %s" % (os.path.relpath(path, top), old, table[old]))
                refused.add(old)
    # a definition that a clause cites beside a parameter of that name: the parameter would hide it
    for path, text in texts.items():
        if path.endswith(".rt"):
            parameters = {p for a in re.findall(r"\bfn \w+(?:<[^>]*>)?\(([^{]*?)\)\s*(?:->|requires|ensures|\{|$)", text, re.S | re.M) for p in re.findall(r"(\w+)\s*:", a)}
            for old in set(TOKEN.findall(text)) & table.keys():
                if table[old] in parameters and old not in refused:
                    print("together: %s: %s and the parameter %s" % (os.path.relpath(path, top), old, table[old]))
                    table[old] += "_of"
    taken = set(table.values()) | {t for p, text in texts.items() if p.endswith(".antt") for t in TOKEN.findall(text)}
    for old in sorted(refused):
        if old in TOGETHER:
            continue
        law = table.pop(old) + "_law"
        if "-" in old and law not in taken:
            table[old] = law
            print("law: %s -> %s" % (old, law))
    source = {w for p, text in texts.items() if p.endswith(".rt") for w in re.findall(r"[a-z_][a-z0-9_]*", text)}
    own = {os.path.basename(os.path.dirname(d)) for p in texts for d in [p.split("/src/")[0] + "/"] if "/src/" in p}
    def outside(text):
        """Names that `use` lines bring from other libraries: these keep their spelling in this file."""
        names = set()
        for module, group in re.findall(r"\buse ([\w.]+)\.\{([^}]*)\}", text):
            parts = module.split(".")
            if not (parts[0] == "Rattle" and len(parts) > 1 and parts[1] in own):
                names.update(n.strip().split(" as ")[0] for n in group.split(","))
        return names
    def turn(text, walk=False):
        # in a walk of a function `c.before.end-of` is the step of a call, with the name that the source has
        kept = outside(text)
        def one(m):
            name = m.group(0)
            if name in kept:
                return name
            if walk and m.start() and text[m.start() - 1] == "." and re.sub(r"-?\d*$", "", name.replace("-", "_")) in source:
                return name
            return table.get(name, name)
        return TOKEN.sub(one, text)
    if "--names" in sys.argv:
        print("\n".join("%s -> %s" % pair for pair in sorted(table.items())))
    changed = 0
    for path, text in texts.items():
        if path.endswith(".md"):
            new = re.sub(r"`[^`\n]+`", lambda m: turn(m.group(0)), text)
        elif path.endswith(".py"):
            new = re.sub(r"\b[a-z]+[A-Z]\w*", lambda m: table.get(m.group(0), m.group(0)), text)
        else:
            new = turn(text, path.endswith("Proof.antt"))
        if new != before[path]:
            changed += 1
            if not dry:
                with open(path, "w", encoding="utf-8") as f:
                    f.write(new)
    print("respell: %d names, %d files%s, %d left as they fall together" % (len(table), changed, " (dry)" if dry else "", len(refused)))


main()
