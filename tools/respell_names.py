#!/usr/bin/env python3
"""Respells the repository's own names after port.py: words in snake case, types in camel case.

usage: python3 tools/respell_names.py        once, at the top of the repository, right after port.py
       python3 tools/respell_names.py --table    only prints each old name with its new spelling

A name is ours if a file of specs/ or proofs/ declares it, as a definition, a lemma, a field or a constructor, or binds it as a
variable. A name that a file imports from the kit, and a name that Rattle makes, in a function's proof, stays. Comments stay.
In pages (README.md, docs/) only what stands between back quotes is respelled, and in tools/ and tests/ only whole names.
"""
import collections
import os
import re
import sys

NAME = r"[^\s(){}.;,@\"«»\[\]`|]+"
DECLARED = re.compile(rf"((?:abbrev |unfoldable |pub |private )*)(data |record )?({NAME}) ?(?:\{{[^}}\n]*\}} *|\([^)\n]*\) *)*:(?!=)(.*)")
INNER = re.compile(rf"(?:pub )?({NAME}(?: {NAME})*) ?(?:\{{[^}}\n]*\}} *)*:(?!=)(.*)")
USE = re.compile(r"\buse ([^\s;{]+)(\{[^;}]*\})?(?: as ([^\s;]+))?")
TOKEN = re.compile(NAME)
LITERAL = re.compile(r'b?"(?:[^"\\\\]|\\\\.)*"|b?\'(?:[^\'\\\\]|\\\\.)\'')
# Where the items, and the nodes, of words start: these definitions would be spelled like the parameters of Rust that hold the number.
OFFSETS = {"items-at": "items_offset", "nodes-at": "nodes_offset", "items_at": "items_offset", "nodes_at": "nodes_offset"}
IN_RUST = re.compile(r"(?<=\()(items|nodes)[-_]at(?= (?:words|ws)\b)")


def texts(*endings):
    for folder, dirs, files in os.walk("crates"):
        dirs[:] = sorted(d for d in dirs if d != "out")
        for file in sorted(files):
            if file.endswith(endings):
                yield os.path.join(folder, file)


def read(path):
    with open(path, encoding="utf-8") as file:
        return file.read()


def of_a_function(path):
    """Whether the file is the proof of a function: proofs/F/.., where most names are made by Rattle."""
    parts = path.split(os.sep)
    return parts[2] == "proofs" and len(parts) > 4


def declared():
    """Each name that a file of specs/, or a lemma file of proofs/, declares, and whether it is a type's."""
    names = collections.defaultdict(bool)
    for path in texts(".antt"):
        if of_a_function(path):
            continue
        inside = False
        for line in read(path).split("\n"):
            top = DECLARED.match(line)
            inner = INNER.match(line.strip()) if line.startswith(" ") else None
            section = DECLARED.match(line.strip()) if re.match(r" +(pub )?(abbrev|unfoldable|record|data) ", line) else None
            if section:
                kind = bool(section.group(2)) or bool(re.search(r"(^|→ |: )Type \d+$", section.group(4).strip()))
                names[section.group(3).strip("◌_")] |= kind
            if top and not line.startswith((" ", "--")):
                inside = bool(top.group(2))
                kind = bool(top.group(2)) or bool(re.search(r"(^|→ |: )Type \d+$", top.group(4).strip()))
                names[top.group(3).strip("◌_")] |= kind
            elif inner and inside and not line.strip().startswith("--"):
                for name in inner.group(1).split():
                    names[name.strip("◌_")] |= False
    return names


def spelled(name, is_type):
    if is_type:
        return "".join(word[:1].upper() + word[1:] for word in name.split("-"))
    return re.sub(r"(?<=[^-])-(?=[^-])", "_", name)


def kit_names(code, crates):
    """What a file imports from the kit, by name, and its short names of the kit's modules."""
    names, modules = set(), set()
    for path, items, alias in USE.findall(code):
        steps = path.strip(".").split(".")
        if steps[0] == "Rattle" and len(steps) > 1 and steps[1] in crates:
            if len(steps) > 2 and steps[2] == "proofs" and alias:
                modules.add(alias)
            continue
        if steps[0] in ("super", "package", "self"):
            continue
        names.update(TOKEN.findall(items[1:-1]) if items else [])
        if alias:
            modules.add(alias)
    return names, modules


def turn(code, path, own, crates, free):
    """The text with our names respelled. free: a hyphenated word that nobody declares is a variable of ours."""
    kit, modules = kit_names(code, crates)
    ours = {name for path, items, alias in USE.findall(code) if path.startswith("Rattle.definitions.specs.Cells") for name in TOKEN.findall(items)}
    kit_offsets = ours & set(OFFSETS)
    rust = path.endswith(".rt") or bool(re.search(r"(?m)^file: src/", code))
    out = []
    for line in code.split("\n"):
        mark = "//" if rust else "--"
        found = re.search(rf"(^|\s){mark}(?=\s|$)" if not rust else rf"(^|\s){mark}", line)
        text, comment = (line[: found.start()], line[found.start():]) if found else (line, "")
        done, last = [], 0
        literals = [it.span() for it in LITERAL.finditer(text)] if rust else []
        if rust:
            text = IN_RUST.sub(r"\1_offset", text)
            if re.match(r"\s*ghost use Rattle\.definitions\.specs\.Cells\b", text):
                text = re.sub(r"\b(items|nodes)[-_]at\b", r"\1_offset", text)
        for it in TOKEN.finditer(text):
            word = it.group()
            bare = word.strip("◌")
            if any(a <= it.start() < b for a, b in literals):
                continue
            if not rust and bare in OFFSETS and (free or bare in kit_offsets) and not text[: it.start()].endswith("."):
                done.append(text[last: it.start()] + word.replace(bare, OFFSETS[bare]))
                last = it.end()
                continue
            if "-" not in bare or not re.match(r"[^\W\d]", bare) or bare in kit:
                continue
            dotted = text[: it.start()].endswith(".")
            if dotted:
                head = re.search(rf"({NAME})\.$", text[: it.start()])
                if head and head.group(1) in modules:
                    continue
                if bare not in own and not free:
                    continue
            elif bare not in own and not free:
                continue
            done.append(text[last: it.start()] + word.replace(bare, spelled(bare, own.get(bare, False))))
            last = it.end()
        out.append("".join(done) + text[last:] + comment)
    return "\n".join(out)


def clashes(old, new, path):
    """Lines that say where two names of a file fell together."""
    first, second = TOKEN.findall(old), TOKEN.findall(new)
    if len(first) != len(second):
        yield f"left: {path}: not word for word"
        return
    came = collections.defaultdict(set)
    for a, b in zip(first, second):
        came[b].add(a)
    for b, them in sorted(came.items()):
        if len(them) > 1:
            yield f"left: {path}: {' and '.join(sorted(them))} are both {b} now"


def main():
    crates = set(os.listdir("crates"))
    names = declared()
    own = {name: kind for name, kind in names.items() if "-" in name}
    if "--table" in sys.argv:
        for name, kind in sorted(own.items()):
            print(f"{name}\t{spelled(name, kind)}")
        return
    whole = collections.defaultdict(set)
    for name in names:
        whole[spelled(name, names[name])].add(name)
    for name, them in sorted(whole.items()):
        if len(them) > 1:
            print(f"look: {' and '.join(sorted(them))} are both {name}, in some files")
    changed = 0
    for path in texts(".antt", ".rt", ".edit"):
        old = read(path)
        new = turn(old, path, own, crates, free=path.split(os.sep)[2] in ("specs", "src", "must-fail") or not of_a_function(path))
        for line in clashes(old, new, path):
            print(line)
        if new != old:
            changed += 1
            with open(path, "w", encoding="utf-8") as file:
                file.write(new)
    print(f"{len(own)} names, {changed} files")


main()
