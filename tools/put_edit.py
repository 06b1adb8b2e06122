"""usage: put_edit.py FOLDER EDIT: puts an edit, lines 'file:', 'old:' and 'new:', into a folder of crates. Each old text must stand in its file exactly once."""
import sys

folder, edit = sys.argv[1:]
for line in open(edit, encoding="utf8").read().split("\n"):
    kind, _, text = line.partition(": ")
    if kind == "file":
        path = folder + "/" + text
    if kind == "old":
        old = text
    if kind == "new":
        source = open(path, encoding="utf8").read()
        if source.count(old) != 1:
            sys.exit(edit + ": not exactly once: " + old)
        open(path, "w", encoding="utf8").write(source.replace(old, text))
