#!/usr/bin/env python3
"""Reads what host/page.c prints and works its numbers out anew, from the printed clips and relinks alone. usage: page_numbers.py < PAGE"""
import re
import sys


def wrong(what):
    sys.exit("page: " + what)


def tables(lines):
    """The printed pages, in order: for each, {project: (MiB, {clip: MiB})} and the MiB together."""
    found, rows = [], {}
    for line in lines:
        row = re.match(r"  (\S.*?) +(\d+) MiB(.*)$", line)
        if row is None:
            continue
        name, size, clips = row[1], int(row[2]), {clip: int(mib) for clip, mib in re.findall(r'"([^"]+)" (\d+)', row[3])}
        if name == "together":
            found.append((rows, size))
            rows = {}
        else:
            rows[name] = (size, clips)
    return found


def where(table):
    return {clip: project for project, (_, clips) in table[0].items() for clip in clips}


def adds_up(name, table, all_clips):
    rows, together = table
    listed = [clip for _, clips in rows.values() for clip in clips]
    if sorted(listed) != sorted(all_clips):
        wrong(f"{name}: not every clip once: {listed}")
    for project, (size, clips) in rows.items():
        if size != sum(clips.values()):
            wrong(f"{name}: {project} has {size} MiB, and its clips {sum(clips.values())}")
    if together != sum(all_clips.values()):
        wrong(f"{name}: {together} MiB together, and all clips have {sum(all_clips.values())}")


def is_of_its_moment(name, table, lines, handle, opening):
    """Each clip is where the relinks that were done before the snapshot left it, or where one that was under way takes it."""
    at = next(i for i, line in enumerate(lines) if f"A snapshot is taken: handle {handle}." in line or f"Another snapshot is taken: handle {handle}." in line)
    relink = re.compile(r'  desk .: "([^"]+)" from (.+) to (.+)$')
    done = [relink.match(line) for line in lines[:at] if relink.match(line)]
    after = [relink.match(line) for line in lines[at:] if relink.match(line)]
    left = dict(opening)
    left.update({match[1]: match[3] for match in done})
    if not done or not after:
        wrong(f"{name}: no relink before it, or none after it")
    for clip, project in where(table).items():
        under_way = [match[3] for match in after if match[1] == clip][:1]
        if project not in [left[clip]] + under_way:
            wrong(f'{name}: "{clip}" is in {project}; it was in {left[clip]}, and on its way to {under_way}')


def counts_are_right(lines, clips):
    """The relinks and those that came too late are as many as are told; nodes: one for each clip and relink, and at most one for each desk's under way."""
    text = "\n".join(lines)
    made = len(re.findall(r'(?m)^  desk .: "[^"]+" from .+ to .+$', text))
    late = len(re.findall(r"(?m)^  desk .: .* is no longer in .*; asks again$", text))
    said = re.search(r"; (\d+) relinks were made in all, (\d+) came too late\.", text)
    used = re.search(r"(?m)^(\d+) of \d+ nodes .* and (\d+) of \d+ handles are used\.$", text)
    if not said or (int(said[1]), int(said[2])) != (made, late):
        wrong(f"{made} relinks are told, and {late} that came too late; it says {said and said[0]}")
    if not used or not clips + made <= int(used[1]) <= clips + made + 2 or int(used[2]) != 2:
        wrong(f"{clips} clips, {made} relinks and two snapshots; it says {used and used[0]}")


def main():
    lines = sys.stdin.read().split("\n")
    found = tables(lines)
    if len(found) != 4:
        wrong(f"{len(found)} tables, and four were to be printed")
    opening, page, later, again = found
    all_clips = {clip: mib for _, clips in opening[0].values() for clip, mib in clips.items()}
    for name, table in zip(("the opening", "the page", "the later page", "the page asked again"), found):
        adds_up(name, table, all_clips)
    is_of_its_moment("the page", page, lines, 0, where(opening))
    is_of_its_moment("the later page", later, lines, 1, where(opening))
    if page != again:
        wrong("the page asked again has other numbers")
    if later == page:
        wrong("the room did not move on")
    counts_are_right(lines, len(all_clips))
    refused = [re.match(r" +(\d+)  [^:]+: (\S.*)$", line) for line in lines[lines.index("What is refused, each by its number and in words:") + 1 :]]
    if [int(match[1]) for match in refused if match] != list(range(1, 13)):
        wrong("not each refusal from 1 to 12, in order")
    if len({match[2] for match in refused if match}) != 12:
        wrong("two refusals have the same words")


main()
