"""A schedule as an SVG picture: bands of frames, one below the other, each with its axis, a row for each worker and a row for each item.

A band ends after so many frames, or before a make that is not refused, so that each band is of one catalogue. A label is never drawn over another: each
row has as many lanes for its labels as they need by their measured width.
"""
from bisect import bisect_left, bisect_right
from html import escape

from catalogue import MAKE, OPERATIONS, REGISTER, RUNNING, STEP, TBD

COLUMN, LEFT, RIGHT = 34, 136, 12  # the width of a frame, of the rows' names, and of the margin
BOX, BAR, LANE, GAP = 22, 12, 13, 6  # the heights of a step's box, of a version's bar and of a lane of labels; the room between labels
ROWS_ALWAYS = 8  # so many workers, and so many items, have a row in every band; of more, those with something in it
COLOURS = 8
FEWEST_COLUMNS = 15  # a picture is at least so wide, for its legend
# Classes are of one letter, since a long picture has very many. Texts: m, k in a box, n a frame's number, r refused, h a handle, g grey, w white. Boxes: s a
# step, e one that answers, o an effect, x refused, c make or register, t a start, v a version, u one without a stamp. Lines: l a row's, d a snapshot's.
STYLE = """text{font:11px sans-serif;fill:#333;paint-order:stroke;stroke:#fff;stroke-width:2px}
.m,.k{text-anchor:middle;stroke:none}.k{font-size:10px}.n{text-anchor:middle;font-size:10px;fill:#777}
.r{fill:#b00}.h{fill:#181}.g{fill:#777}.w{fill:#fff}
.s{fill:#cde;stroke:#456}.e{fill:#9bd;stroke:#456}.o{fill:#f90;stroke:#456}.x{fill:#c33;stroke:#811}.c{fill:#eee;stroke:#777}.t{fill:#fff;stroke:#456}
.l{stroke:#bbb;fill:none}.d{stroke:#2a2;stroke-width:2;stroke-dasharray:5 3;fill:none}.u{fill:#fff;stroke:#888;stroke-dasharray:3 2}
.v{stroke:#888}.v0{fill:#ddd}.v1{fill:#bfe3c0}.v2{fill:#f9d9b0}.v3{fill:#c9d5f5}.v4{fill:#f3c6d8}.v5{fill:#e6e3a8}.v6{fill:#bfe6e6}.v7{fill:#dccbf0}"""

# The width of a character in parts of the font's size: at least that of the widest of the usual sans-serif fonts (DejaVu Sans, Verdana).
NARROW, MIDDLING, WIDE = set("ijl.,' |"), set("frtI()-:;/[]!"), set("mwMW@%=+<>")


def width_of(text, size=11):
    parts = (0.37 if c in NARROW else 0.46 if c in MIDDLING else 1.0 if c in WIDE else 0.79 if c.isupper() else 0.64 for c in text)
    return size * sum(parts)


class Lanes:
    """Labels of one row, given from left to right: each goes into the first lane where it is clear of those before it."""

    def __init__(self, right):
        self.right, self.ends, self.placed = right, [], []

    def put(self, x, text, kind=""):
        width = width_of(text)
        x = max(LEFT, min(x, self.right - width))
        lane = next((lane for lane, end in enumerate(self.ends) if end + GAP <= x), len(self.ends))
        self.ends[lane:lane + 1] = [x + width]
        self.placed.append((x, lane, text, kind))

    @property
    def height(self):
        return LANE * len(self.ends)


def label(x, y, text, kind=""):
    written = f' class="{kind}"' if kind else ""
    return f'<text x="{x:g}" y="{y}"{written}>{escape(text, quote=False)}</text>'


def box(kind, x, y, width, height):
    return f'<path class="{kind}" d="M{x:g} {y}h{width:g}v{height}h-{width:g}z"/>'


def start_mark(x, y):
    return f'<path class="t" d="M{x:g} {y}l12 6l-12 6z"/>'


def effect_mark(x, y):
    return f'<path class="o" d="M{x - 6:g} {y + BAR}l6 -{BAR}l6 {BAR}z"/>'


def asked_in_short(frame):
    name, arguments = OPERATIONS[frame[0]].name, frame[1]
    own = arguments if frame[0] in (MAKE, REGISTER) else arguments[1:]
    return f"{name}({', '.join(map(str, own))})" if own else name


def span_in_short(span):
    if span.answer is None:
        return f"{asked_in_short(span.frame)} = .."
    refusal = span.answer.refusal
    return f"{asked_in_short(span.frame)} {f'refused {refusal}' if refusal else f'= {span.answer.value}'}"


def version_in_short(version):
    """Project, stamp, whose change, and the frame in which it took effect."""
    stamp = "TBD" if version.stamp == TBD else version.stamp
    if version.worker is None:
        return f"{version.value}, stamp {stamp}, registered at {version.published}"
    return f"{version.value}, stamp {stamp}, worker {version.worker}" + (f", at {version.effect}" if version.effect else "")


class Band:
    """Some frames of one catalogue, as a picture of its own: `elements`, `width` and `height`."""

    def __init__(self, run, made, first, last, columns):
        self.run, self.made, self.first, self.last = run, made, first, last
        self.right = LEFT + COLUMN * columns
        self.width = self.right + RIGHT
        self.elements, self.calls_of, self.labels = [], {}, []
        for number in range(first, last + 1):
            self.calls_of.setdefault(run.calls[number - 1].worker, []).append(number)
        self.height = self.draw()

    def x(self, number):
        """Where a frame's column begins; frames before the band, and after it, stand at its edges."""
        return LEFT + COLUMN * (max(self.first, min(number, self.last + 1)) - self.first)

    def middle(self, number):
        return self.x(number) + COLUMN // 2

    def inside(self, number):
        return number is not None and self.first <= number <= self.last

    def draw(self):
        y = self.axis()
        top, behind = y, len(self.elements)
        if None in self.calls_of:
            y = self.calls_row(y)
        if self.made is not None:
            for worker in self.workers_drawn():
                y = self.worker_row(y, worker)
            for item in self.items_drawn():
                y = self.item_row(y, item)
            y = self.left_out(y)
            self.elements[behind:behind] = [self.snapshot_line(self.middle(at), top, y - 6) for at, _ in self.snapshots()]
        return y + 4

    def put_labels(self, lanes, first, down):
        """Draws the labels of a row, the first lane's baseline at `first`, the others below it or above."""
        for x, lane, text, kind in lanes.placed:
            y = first + (LANE if down else -LANE) * lane
            self.elements.append(label(x, y, text, kind))
            self.labels.append((x, y, width_of(text)))

    def snapshot_line(self, x, top, bottom):
        """From top to bottom, but through no label."""
        path = ""
        for at, y, width in sorted(self.labels, key=lambda given: given[1]):
            if at - 2 < x < at + width + 2 and top < y < bottom + LANE:
                path += f"M{x} {top}V{max(top, y - 11)}"
                top = y + 4
        return f'<path class="d" d="{path}M{x} {top}V{max(top, bottom)}"/>'

    def snapshots(self):
        if self.made is None:
            return []
        given = self.made.snapshots
        return given[bisect_left(given, self.first, key=lambda s: s[0]):bisect_right(given, self.last, key=lambda s: s[0])]

    def axis(self):
        """The frames' numbers, and above them the handles that the counter left here."""
        handles = Lanes(self.right)
        for at, handle in self.snapshots():
            text = f"handle {handle}"
            handles.put(self.middle(at) - width_of(text) / 2, text, "h")
        self.put_labels(handles, handles.height - 3, False)
        y = handles.height + 11
        each = next(step for step in (1, 2, 5, 10) if step == 10 or width_of(str(self.last), 10) + GAP / 2 <= step * COLUMN)
        self.elements.append(label(4, y, "frame", "g"))
        for number in range(self.first, self.last + 1, each):
            self.elements.append(label(self.middle(number), y, str(number), "n"))
        ticks = "".join(f"M{self.middle(number)} {y + 3}v4" for number in range(self.first, self.last + 1))
        self.elements.append(f'<path class="l" d="{ticks}"/>')
        return y + 12

    # Which workers and items have a row here.
    def workers_drawn(self):
        workers = self.made.sizes[0]
        return range(workers) if workers <= ROWS_ALWAYS else sorted(worker for worker in self.calls_of if worker is not None)

    def items_there(self):
        """How many items are registered by the band's end."""
        return bisect_right(self.made.items, self.last, key=lambda versions: versions[0].published)

    def items_drawn(self):
        if self.items_there() <= ROWS_ALWAYS:
            return range(self.items_there())
        return sorted({call.item for call in self.run.calls[self.first - 1:self.last]} - {None})

    def left_out(self, y):
        """Says how many rows are left out, since no frame here is of them."""
        workers = self.made.sizes[0] - len(self.workers_drawn())
        items = self.items_there() - len(self.items_drawn())
        parts = [f"{count} other {what}" for count, what in ((workers, "workers"), (items, "items")) if count]
        if not parts:
            return y
        lanes = Lanes(self.right)
        lanes.put(LEFT, f"no frame here for {' and '.join(parts)}", "g")
        self.put_labels(lanes, y + 9, True)
        return y + LANE + 4

    def name_row(self, y, name):
        self.elements.append(label(4, y, name))

    def boxes_row(self, y, name, labels, numbers, spans=()):
        """A row of boxes with its labels above it: of the calls of one worker, or of those without one."""
        lanes = Lanes(self.right)
        for x, text, kind in sorted(labels, key=lambda given: given[0]):
            lanes.put(x, text, kind)
        top = y + lanes.height
        self.put_labels(lanes, top - 4, False)
        self.name_row(top + 15, name)
        middle = top + BOX // 2
        edge = self.x(self.last + 1)
        self.elements.append(f'<path class="l" d="M{LEFT} {middle}H{edge}"/>')
        for span in spans:
            start = self.middle(span.first) if self.inside(span.first) else LEFT
            end = self.middle(span.last) if self.inside(span.last) else edge
            self.elements.append(f'<path class="l" stroke-width="4" d="M{start} {middle}H{end}"/>')
        for number in numbers:
            self.call_box(self.run.calls[number - 1], self.x(number), top)
        return top + BOX + 10

    def call_box(self, call, x, top):
        answer = call.answer
        if answer.refusal:
            kind, text, written = "x", answer.refusal, "m w"
        elif answer.line is not None:
            kind, text, written = "o" if call.effect else "s" if answer.code == RUNNING else "e", answer.line or "end", "m"
        elif call.frame[0] in (MAKE, REGISTER):
            kind, text, written = "c", "make" if call.frame[0] == MAKE else "reg", "k"
        else:
            self.elements.append(start_mark(x + 11, top + 5))
            return
        self.elements.append(box(kind, x + 2, top, COLUMN - 4, BOX))
        self.elements.append(label(x + COLUMN // 2, top + 15, str(text), written))

    def calls_row(self, y):
        """Make, register, frames that are none, and calls for a worker that is not there."""
        labels = []
        for number in self.calls_of[None]:
            call = self.run.calls[number - 1]
            if call.frame is None:
                text = "bad frame"
            elif call.item is not None:
                text = f"item {call.item}"  # registered: the rest stands in the item's row
            elif call.frame[0] in (MAKE, REGISTER):
                text = asked_in_short(call.frame)
            else:
                text = f"worker {call.frame[1][0]}: {asked_in_short(call.frame)}"
            labels.append((self.x(number), text, "r" if call.answer.refusal else ""))
        return self.boxes_row(y, "other calls", labels, self.calls_of[None])

    def worker_row(self, y, worker):
        spans = self.spans_of(worker)
        labels = [(self.x(span.first), (".. " if span.first < self.first else "") + span_in_short(span), "") for span in spans]
        for number in self.calls_of.get(worker, ()):
            call = self.run.calls[number - 1]
            if call.answer.refusal and call.frame[0] != STEP:
                labels.append((self.x(number), asked_in_short(call.frame), "r"))
        return self.boxes_row(y, f"worker {worker}", labels, self.calls_of.get(worker, ()), spans)

    def spans_of(self, worker):
        """The worker's operations that are running in some frame of the band."""
        spans = self.made.spans.get(worker, [])
        until = bisect_right(spans, self.last, key=lambda span: span.first)
        since = bisect_right(spans, self.first, key=lambda span: span.first)
        if since and (spans[since - 1].last is None or spans[since - 1].last >= self.first):
            since -= 1
        return spans[since:until]

    def item_row(self, y, item):
        versions = self.made.items[item]
        since = max(0, bisect_right(versions, self.first, key=lambda version: version.published) - 1)
        until = bisect_right(versions, self.last, key=lambda version: version.published)
        lanes = Lanes(self.right)
        self.name_row(y + 10, f"item {item}, {self.made.item_sizes[item]} MiB")
        for at in range(since, until):
            ends = versions[at + 1].published if at + 1 < until else self.last + 1
            self.version_bar(y, versions[at], self.x(ends))
            lanes.put(self.x(versions[at].published) + 2, version_in_short(versions[at]))
        self.put_labels(lanes, y + BAR + 11, True)
        return y + BAR + lanes.height + 8

    def version_bar(self, y, version, end):
        """From its publication: dashed while its stamp is still to be decided, then in its project's colour."""
        start = self.x(version.published)
        decided = end if version.stamped is None else min(end, self.x(version.stamped))
        if start < decided:
            self.elements.append(box("u", start + 1, y, decided - start - 1, BAR))
        if decided < end:
            self.elements.append(box(f"v v{version.value % COLOURS}", decided + (decided == start), y, end - decided - 1, BAR))
        if version.worker is not None and self.inside(version.effect):
            self.elements.append(effect_mark(self.middle(version.effect), y))


def bands(run, first, last, columns):
    """The bands of frames `first` to `last`, each at most so many frames wide."""
    columns = max(FEWEST_COLUMNS, min(columns, last - first + 1))
    begins = [made.frame for made in run.makes]
    at = first
    while at <= last:
        makes = bisect_right(begins, at)
        end = min(last, at + columns - 1, begins[makes] - 1 if makes < len(begins) else last)
        yield Band(run, run.makes[makes - 1] if makes else None, at, end, columns)
        at = end + 1


# The legend: a drawing of each sign, a column wide, and what it says.
LEGEND = (
    (lambda x, y: start_mark(x + 11, y + 5), "an operation is started"),
    (lambda x, y: box("s", x + 2, y, 30, BOX) + label(x + 17, y + 15, "45", "m"), "a step, with its line of Algorithm 1"),
    (lambda x, y: box("e", x + 2, y, 30, BOX) + label(x + 17, y + 15, "48", "m"), "the step that answers"),
    (lambda x, y: box("o", x + 2, y, 30, BOX) + label(x + 17, y + 15, "21", "m"), "a change takes effect: the line 21 whose line 22 stamps it"),
    (lambda x, y: box("x", x + 2, y, 30, BOX) + label(x + 17, y + 15, "6", "m w"), "refused, with its number"),
    (lambda x, y: f'<path class="d" d="M{x + 17} {y}v{BOX}"/>', "the counter leaves a handle"),
    (lambda x, y: box("v v1", x + 2, y + 5, 30, BAR) + effect_mark(x + 17, y + 5), "a version: project, stamp, whose change, and the frame in which it took effect"),
    (lambda x, y: box("u", x + 2, y + 5, 30, BAR), "its stamp is still to be decided (TBD)"),
)


def legend(width):
    """The legend's elements, from y 0 on, and its height."""
    elements, x, y = [], 4, 0
    for sign, text in LEGEND:
        wide = COLUMN + 4 + width_of(text)
        if x > 4 and x + wide > width - RIGHT:
            x, y = 4, y + BOX + 6
        elements += [sign(x, y), label(x + COLUMN + 4, y + 15, text)]
        x = round(x + wide + 3 * GAP)
    return elements, y + BOX + 8


def drawing(width, height, elements):
    yield f'<svg xmlns="http://www.w3.org/2000/svg" width="{width}" height="{height}" viewBox="0 0 {width} {height}"><style>{STYLE}</style>'
    yield f'<path fill="#fff" d="M0 0h{width}v{height}h-{width}z"/>'
    yield from elements
    yield "</svg>"


def picture(run, first, last, columns):
    """The whole picture: which frames, the bands one below the other, the legend."""
    elements, y, width = [label(4, 14, f"frames {first} to {last} of {run.frames_given}", "g")], 24, 0
    for band in bands(run, first, last, columns):
        elements += [f'<g transform="translate(0 {y})">', *band.elements, "</g>"]
        y, width = y + band.height + 8, band.width
    signs, height = legend(width)
    elements += [f'<g transform="translate(0 {y})">', *signs, "</g>"]
    return drawing(width, y + height, elements)
