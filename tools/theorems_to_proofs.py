#!/usr/bin/env python3
"""usage: python3 tools/theorems_to_proofs.py [pages], at the top of the repository.

Moves the files of theorems that rest on a definition which a must-fail edit changes from a crate's specs/ to its proofs/, whole and under their names, and
turns each import of them. (rt takes an edit as refused only where no other declaration in specs/ rests on the theorem that falls.) A file that moved already
stays where it is, so it may be run again, as for an import that is newer. With the word pages it also turns the paths in README.md and docs/*.md."""
import os
import re
import subprocess
import sys

# The files that stay in specs/: definitions, statements, and lemmas that rest on no definition that an edit of the crate changes.
STAY = {
    "history": "Definition1 Demands Effects Facts Machine NoteParts Notes Statements Tools",
    "reached": "Effects Grows Idle Image Never Parts Register Sound Unused",
    "printed": "Listing Printed",
    "refuted": "AnyOrder Catalogues ReadLaws Runs Tests Unchanged Wrong",
}


def modules(path):
    """The modules that a Lib.antt names, in their order."""
    if not os.path.exists(path):
        return []
    with open(path, encoding="utf-8") as it:
        return re.findall(r"^(?:pub )?mod (\w+)", it.read(), re.M)


def write(path, text):
    with open(path, "w", encoding="utf-8") as it:
        it.write(text)


def move(crate, stay):
    """Moves the other files of the crate's specs/, and returns the names of all that are in proofs/."""
    folder = f"crates/{crate}"
    lib, moved = f"{folder}/proofs/Lib.antt", modules(f"{folder}/proofs/Lib.antt")
    going = [it for it in modules(f"{folder}/specs/Lib.antt") if it not in stay]
    if going:
        os.makedirs(f"{folder}/proofs", exist_ok=True)
        for name in [it for it in going if os.path.exists(f"{folder}/specs/{it}.antt")]:
            subprocess.run(["git", "mv", f"{folder}/specs/{name}.antt", f"{folder}/proofs/{name}.antt"], check=True)
        moved = going + [it for it in moved if it not in going]
        write(lib, "".join(f"pub mod {it}\n" for it in moved))
        with open(f"{folder}/specs/Lib.antt", encoding="utf-8") as it:
            text = it.read()
        write(f"{folder}/specs/Lib.antt", re.sub(r"^(?:pub )?mod (\w+)\n", lambda m: "" if m[1] in going else m[0], text, flags=re.M))
    # (a file that was split has its name in both)
    return [it for it in moved if it not in stay]


def sources():
    for at, folders, names in os.walk("crates"):
        folders[:] = [it for it in folders if it != "out"]
        yield from (f"{at}/{it}" for it in names if it.endswith((".antt", ".rt")))


def pages():
    return ["README.md", *(f"docs/{it}" for it in os.listdir("docs") if it.endswith(".md") and it != "PORT.md")]


def main():
    changes = []
    for crate, stay in STAY.items():
        names = "|".join(move(crate, stay.split()))
        changes.append((re.compile(rf"\bRattle\.{crate}\.specs\.({names})\b"), rf"Rattle.{crate}.proofs.\1"))
        changes.append((re.compile(rf"\b{crate}/specs/({names})\b"), rf"{crate}/proofs/\1"))
    for path in [*sources(), *(pages() if sys.argv[1:] == ["pages"] else [])]:
        with open(path, encoding="utf-8") as it:
            text = was = it.read()
        for find, put in changes:
            text = find.sub(put, text)
        if text != was:
            write(path, text)


if __name__ == "__main__":
    main()
