"""A schedule as one HTML page that needs nothing else: one steps through its frames, and reads each in words, its answer, and the words of the catalogue.

The page holds, for each frame, its line, its answer, its sentence and the words it changed, and the timeline's bands; all as one compressed text, so that
a page of 50,000 frames is some megabytes. The page itself is timeline_page.html.
"""
import base64
import gzip
import json
import os

from catalogue import FIELD_AT, LENT, LONGEST_LINE, PHASES, RECORD_WORDS
from sentences import answer_in_words, call_in_words
from timeline_picture import COLUMN, LEFT, STYLE, bands, legend

TEMPLATE = os.path.join(os.path.dirname(os.path.abspath(__file__)), "timeline_page.html")


def shown(line):
    """A line as the page shows it: a bad one may be of any length."""
    return line if len(line) <= LONGEST_LINE else line[:LONGEST_LINE] + " .."


def words_before(run, first):
    """The words before frame `first` that are not zero, as (word, number): those at the end, with the later changes taken back."""
    words = list(run.catalogue.words)
    for call in reversed(run.calls[first - 1:]):
        for word, old, _ in reversed(call.answer.changes):
            words[word] = old
    return [(word, number) for word, number in enumerate(words) if number]


def page_data(run, first, last, columns):
    calls = run.calls[first - 1:last]
    drawn = list(bands(run, first, last, columns))
    signs, height = legend(drawn[0].width)
    return {
        "first": first, "of": run.frames_given, "lent": LENT, "before": words_before(run, first),
        "lines": [shown(call.text) for call in calls],
        "answers": [call.answer.text() for call in calls],
        "calls": [call_in_words(call.frame, call.running and call.running.frame, call.answer) for call in calls],
        "says": [answer_in_words(call.frame, call.answer) for call in calls],
        "changes": [[number for change in call.answer.changes for number in change] for call in calls],
        "bands": [[band.first, band.last, band.height, "".join(band.elements)] for band in drawn],
        "style": STYLE, "legend": f'<svg width="{drawn[0].width}" height="{height}">{"".join(signs)}</svg>',
        "column": COLUMN, "left": LEFT, "width": drawn[0].width,
        "parts": [[part, RECORD_WORDS[part], [FIELD_AT[part][at] for at in sorted(FIELD_AT[part])]] for part in FIELD_AT],
        "phases": [f"{row.operation}, {f'line {row.line}' if row.line else 'closing step'}" if at else "idle" for at, row in enumerate(PHASES)],
    }


def page(run, first, last, columns):
    with open(TEMPLATE, encoding="utf-8") as template:
        text = template.read()
    data = json.dumps(page_data(run, first, last, columns), separators=(",", ":"))
    packed = base64.b64encode(gzip.compress(data.encode(), compresslevel=6, mtime=0)).decode()
    return text.replace("@DATA@", packed)
