#!/usr/bin/env python3
# Holds the timeline's pictures and pages against the inputs and schedule's answers: a picture of each vector is well-formed, has a box for each call as its
# answer says, and no label over another or cut off; a page has each frame, its answer, and changes that give the model's words.
# usage: tests/timeline_pictures.py FOLDER    (FOLDER is for what the tool writes)
import base64, glob, gzip, json, os, re, subprocess, sys, time
import xml.etree.ElementTree as tree
from collections import Counter

sys.dont_write_bytecode = True
sys.path.insert(0, "tools")
from catalogue import Catalogue, lines_of
from timeline_page import page
from timeline_picture import picture
from timeline_run import Run

FOLDER = sys.argv[1]
SECONDS = 60  # for 50,000 frames, picture and page; a few on a usual machine, more on a slow one
SVG = "{http://www.w3.org/2000/svg}"
# The advance widths of DejaVu Sans, in thousandths of the font's size, from the space on: one of the widest of the usual fonts.
WIDTHS = [318, 401, 460, 838, 636, 950, 780, 275, 390, 390, 500, 838, 318, 361, 318, 337, 636, 636, 636, 636, 636, 636, 636, 636, 636, 636, 337, 337,
          838, 838, 838, 531, 1000, 684, 686, 698, 770, 632, 575, 775, 752, 295, 295, 656, 557, 863, 748, 787, 603, 787, 695, 635, 611, 732, 684, 989,
          685, 611, 685, 390, 337, 390, 838, 500, 500, 613, 635, 550, 635, 615, 352, 635, 634, 278, 278, 579, 278, 974, 634, 612, 635, 635, 411, 521,
          392, 634, 592, 818, 592, 592, 525, 636, 337, 636, 838]
failed = 0


def expect(what, got, wanted):
    global failed
    if got != wanted:
        failed += 1
        print(f"timeline: {what}: got {str(got)[:200]}, wanted {str(wanted)[:200]}")


def read(name):
    with open(name, "rb") as given:
        return given.read().decode("latin-1")


def drawn(text, *options):
    ran = subprocess.run([sys.executable, "tools/timeline.py", *options], input=text.encode("latin-1"), stdout=subprocess.PIPE, stderr=subprocess.PIPE)
    expect(f"the status with {options}", (ran.returncode, ran.stderr.count(b"\n") < 2), (0, True))
    return ran.stdout.decode(), ran.stderr.decode()


def bands_of(root):
    """The groups of the picture with how far down each is: the bands, and last the legend."""
    return [(float(re.fullmatch(r"translate\(0 ([\d.]+)\)", group.get("transform"))[1]), group) for group in root.iter(SVG + "g")]


def text_boxes(root):
    """Each text with its box: left, right, top, bottom."""
    boxes = []
    for down, group in [(0, root)] + bands_of(root):
        for text in group.findall(SVG + "text"):
            kinds = (text.get("class") or "").split()
            size = 10 if set(kinds) & {"n", "k"} else 11
            width = sum(WIDTHS[ord(c) - 32] for c in text.text) * size / 1000
            left = float(text.get("x")) - (width / 2 if set(kinds) & {"m", "n", "k"} else 0)
            base = float(text.get("y")) + down
            boxes.append((left, left + width, base - 0.8 * size, base + 0.2 * size, text.text))
    return boxes


def overlapping(boxes):
    boxes = sorted(boxes, key=lambda box: box[2])
    for at, one in enumerate(boxes):
        for other in boxes[at + 1:]:
            if other[2] >= one[3]:
                break
            if one[0] < other[1] and other[0] < one[1]:
                return one, other
    return None


def check_labels(name, root):
    boxes = text_boxes(root)
    expect(f"{name}: labels that overlap", overlapping(boxes), None)
    width, height = float(root.get("width")), float(root.get("height"))
    cut = [box for box in boxes if box[0] < 0 or box[1] > width or box[2] < 0 or box[3] > height]
    expect(f"{name}: labels cut off", cut, [])


def check_boxes(name, root, frames, answers):
    """The picture has, for each call, the sign that its answer asks for; and each refusal's number."""
    wanted, numbers = Counter(), Counter()
    for frame, answer in zip(frames, answers):
        code = int(answer[:2], 16)
        if code >= 16:
            wanted["x"] += 1
            numbers[str(code - 16)] += 1
        else:
            wanted[{0: "e", 1: "step"}.get(code) or ("c" if frame[:2] in ("01", "02") else "t")] += 1
    signs = [element for _, band in bands_of(root)[:-1] for element in band]
    kinds = Counter(element.get("class") for element in signs if element.tag == SVG + "path" and not element.get("d").count("l6 -"))
    got = {"x": kinds["x"], "e": kinds["e"], "step": kinds["s"] + kinds["o"], "c": kinds["c"], "t": kinds["t"]}
    expect(f"{name}: boxes", {kind: count for kind, count in got.items() if count}, dict(wanted))
    expect(f"{name}: numbers of refusal", Counter(element.text for element in signs if element.get("class") == "m w"), numbers)


def data_of(name, page):
    """What a page holds. It asks nothing of any other place."""
    expect(f"{name}: asks for nothing else", re.findall(r"""(?:src|href)\s*=|url\(|@import|fetch\(|XMLHttp|https?:""", page), [])
    packed = re.search(r'<script id="data" type="text/plain">([^<]*)</script>', page)[1]
    return json.loads(gzip.decompress(base64.b64decode(packed)))


def check_data(name, page, frames, answers):
    """Frames from the page's first on: their answers, and words that follow from the changes as they do in the model."""
    model, first = Catalogue(), page["first"]
    for line in frames[:first - 1]:
        model.call_line(line)
    words = [0] * page["lent"]
    for word, number in page["before"]:
        words[word] = number
    count = len(page["lines"])
    expect(f"{name}: the page's answers", page["answers"], answers[first - 1:first - 1 + count])
    expect(f"{name}: a sentence and changes for each frame", {len(page["calls"]), len(page["says"]), len(page["changes"])}, {count})
    expect(f"{name}: frames in the page's bands", sum(last - start + 1 for start, last, _, _ in page["bands"]), count)
    for at, (line, changes) in enumerate(zip(frames[first - 1:], page["changes"]), 1):
        model.call_line(line)
        held = True
        for word, old, new in zip(*[iter(changes)] * 3):
            held = held and words[word] == old
            words[word] = new
        if not held or (at % 50 == 0 or at == count) and words != model.words:  # all words every 50 frames: it takes its time
            expect(f"{name}: the page's words at frame {first - 1 + at}", "others", "the model's")
            return


def check_vectors():
    names = sorted(glob.glob("tests/vectors/*.in"))
    for name in names:
        text, answers = read(name), lines_of(read(name[:-2] + "out"))
        frames, run = lines_of(text), Run(text)
        root = tree.fromstring("".join(picture(run, 1, len(frames), 30)))
        check_labels(name, root)
        check_boxes(name, root, frames, answers)
        check_data(name, data_of(name, page(run, 1, len(frames), 30)), frames, answers)
    return len(names)


def labels(svg):
    return {element.text for element in tree.fromstring(svg).iter(SVG + "text")}


def check_versions():
    """What each item's row says, in runs that document 01 tells: the listing, and runs 8 and 9."""
    for name, wanted in (("listing", {"1, stamp 0, registered at 2", "2, stamp 1, worker 1, at 15", "handle 0", "vCAS(0, 1, 2) = ..", "readSnapshot(0, 0) = 1"}),
                         ("vectors/r08", {"2, stamp 0, worker 0, at 10"}), ("vectors/r09", {"2, stamp 0, worker 0, at 18", "vCAS(0, 1, 3) = 0"})):
        svg, _ = drawn(read(f"tests/{name}.in"))
        expect(f"{name}: labels that are not there", wanted - labels(svg), set())


def axis(svg):
    return [int(element.text) for element in tree.fromstring(svg).iter(SVG + "text") if element.get("class") == "n"]


def check_ranges():
    text = read("tests/vectors/lockstep_00.in")
    frames, answers = lines_of(text), lines_of(read("tests/vectors/lockstep_00.out"))
    for options, wanted in ((("--from", "95", "--to", "230"), (95, 230)), (("--from", "900", "--to", "99999"), (900, 907)), (("--from", "800"), (800, 907)),
                            (("--to", "12"), (1, 12)), (("--from", "7", "--to", "7"), (7, 7)), ((), (1, 907)), (("--columns", "15"), (1, 907))):
        written = os.path.join(FOLDER, "range.html")
        svg, said = drawn(text, "--html", written, *options)
        expect(f"the axis with {options}", axis(svg), list(range(wanted[0], wanted[1] + 1)))
        expect(f"what is said with {options}", said, "")
        check_labels(f"lockstep_00 {options}", tree.fromstring(svg))
        data = data_of(f"the page with {options}", read(written))
        expect(f"the page with {options}", (data["first"], data["first"] + len(data["lines"]) - 1), wanted)
        check_data(f"the page with {options}", data, frames, answers)
    # rows left out, in the narrowest picture
    crowded = ["0100400100100000100fff"] + [f"02{n % 16:04x}ffff" for n in range(256)] + [f"05{n:04x}" for n in range(64)]
    svg, _ = drawn("\n".join(crowded), "--columns", "15")
    check_labels("64 workers and 256 items", tree.fromstring(svg))
    expect("rows left out", {"no frame here for 49 other workers and 256 other items", "item 255, 65535 MiB"} - labels(svg), set())
    for columns in (15, 30, 400):
        bands = bands_of(tree.fromstring(drawn(text, "--columns", str(columns))[0]))[:-1]
        expect(f"bands of {columns} frames", len(bands), -(-907 // columns))


def long_input(count):
    """A busy catalogue: eight workers change, read and total 40 items, with refused calls and bad frames between."""
    frames = ["0100080040100000100fff"] + [f"02{n % 16:04x}{n:04x}" for n in range(40)]
    x = 12
    while len(frames) < count:
        x = (1664525 * x + 1013904223) % 2**32
        worker, kind, item = x >> 16 & 7, (x >> 20) % 40, (x >> 25) % 6
        frames.append(
            f"04{worker:04x}{item:04x}{kind % 3:04x}{x >> 30:04x}" if kind < 5 else f"05{worker:04x}" if kind < 6 else f"06{worker:04x}{item:04x}{x >> 29:04x}"
            if kind < 7 else f"07{worker:04x}{item:04x}0000" if kind < 8 else f"08{worker:04X}f" if kind < 9 else f"08{worker:04x}")
    return "\n".join(frames) + "\n"


def check_long():
    text, written = long_input(50000), os.path.join(FOLDER, "long.html")
    began = time.monotonic()
    svg, said = drawn(text, "--from", "1", "--to", "50000", "--html", written)
    took = time.monotonic() - began
    expect(f"50,000 frames within {SECONDS} seconds", took < SECONDS, True)
    expect("50,000 frames in the page", len(data_of("50,000 frames", read(written))["lines"]), 50000)
    expect("the bands of 50,000 frames", len(bands_of(tree.fromstring(svg))), -(-50000 // 30) + 1)
    short, said = drawn(text)
    expect("what is said of a long input", said, "timeline: frames 48001 to 50000 of 50000 are drawn: --from and --to say which\n")
    check_labels("the last 2,000 of 50,000 frames", tree.fromstring(short))
    return took, len(svg) / 1e6, os.path.getsize(written) / 1e6


count = check_vectors()
check_versions()
check_ranges()
took, svg_size, page_size = check_long()
if not failed:
    print(f"pictures and pages of {count} vectors; 50,000 frames in {took:.1f} s, {svg_size:.1f} MB of picture and {page_size:.1f} MB of page")
sys.exit(failed > 0)
