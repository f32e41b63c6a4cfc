"""The rows of `explain columns` and the drawings made of them, held against the printed page, the second program's endings and each other.

use: python3 against.py EXPLAIN ENDINGS STREAM IMAGES, run from the project's folder. STREAM has schedules, each behind its length; IMAGES is
what the second program's mode endings-many prints of it. Says what is wrong, and at the end how many schedules and endings were looked at.
"""
import os
import re
import struct
import subprocess
import sys
import xml.etree.ElementTree

sys.dont_write_bytecode = True
sys.path.insert(0, os.path.dirname(os.path.dirname(os.path.abspath(__file__))))
from drawing.page import page

LARGE = 2000              # so many endings are put together as images; of more the printed page alone is compared
PLACES = 64               # so many contents of a line `explain` keeps apart

# an index by the mark and version of an image
INDEX = {b"UQI\1\0": "I", b"UQI\2\0": "Q", b"UQP\1\0": "I"}


def own_heads(image):
    """How many desks have a head line of their own, by an image's first bytes: T of "UQP", and none where Head has the one line."""
    return image[6] if image[:3] == b"UQP" else 0


def schedules(stream):
    at = 0
    while at < len(stream):
        (length,) = struct.unpack_from("<I", stream, at)
        yield stream[at + 4:at + 4 + length]
        at += 4 + length


def printed(program, schedule):
    """What a program prints of a schedule."""
    words = ["sh", "tools/run"] + program.split(" ")
    return subprocess.run(words, input=schedule, stdout=subprocess.PIPE, check=True).stdout.decode()


def lines_of_page(rows):
    """The printed page's lines out of the rows: first, third and fourth field of `ending`; the refusal."""
    out = []
    for row in rows:
        if row[0] == "ending":
            out.append(" ".join((row[1], row[3], row[4])))
        elif row[0] == "refused":
            out.append("refused %s at %s" % (row[1], row[2]))
    return out


def kept_in(rows):
    """For each line its contents at the stop, the oldest first."""
    lines = {}
    for row in rows:
        if row[0] == "kept":
            lines.setdefault(int(row[1]), []).append(tuple(row[3:6]))
    return [lines[line] for line in sorted(lines)]


def image_of(start, contents):
    """One content a line, as an image of the start image's form: N, in "UQP" T, the head lines' indices, then linked, index and item of each node."""
    index, desks = INDEX[start[:5]], own_heads(start)
    heads = desks or 1
    out = start[:5] + bytes([len(contents) - heads] + ([desks] if desks else []))
    out += b"".join(struct.pack("<" + index, int(content[1])) for content in contents[:heads])
    return out + b"".join(struct.pack("<B" + index + "I", *(int(x) for x in content)) for content in contents[heads:])


def images_in(start, rows):
    """The images that the rows say, in the form of the schedule's: each ending's letters name a content of each line that has a choice."""
    lines = kept_in(rows)
    for row in rows:
        if row[0] == "ending":
            letters = iter("" if row[2] == "-" else row[2])
            yield image_of(start, [line["abcdefghijklmnop".index(next(letters))] if len(line) > 1 else line[0] for line in lines])


def sum_of(images):
    """The FNV-1a sum of all images, as the second program prints it."""
    total = 14695981039346656037
    for image in images:
        for byte in image:
            total = (total ^ byte) * 1099511628211 & 0xffffffffffffffff
    return struct.pack("<Q", total).hex()


def contents_over(images):
    """For each line its contents over all endings, in the order in which they first appear: in each line the oldest comes first."""
    lines = []
    for image in images:
        index, desks = INDEX[image[:5]], own_heads(image)
        indices, at = "<%d%s" % (desks or 1, index), 7 if desks else 6
        heads = [("-", str(x), "-") for x in struct.unpack_from(indices, image, at)]
        first, size = at + struct.calcsize(indices), struct.calcsize("<B" + index + "I")
        nodes = [tuple(str(x) for x in struct.unpack_from("<B" + index + "I", image, at)) for at in range(first, len(image), size)]
        lines = lines or [[] for _ in heads + nodes]
        for line, content in zip(lines, heads + nodes):
            if content not in line:
                line.append(content)
    return lines


def second_endings(text):
    """Schedule by schedule (count, images where they are few, sum) of the second program; None where it is refused."""
    given, inside = [], 0
    for line in text.splitlines():
        word, *rest = line.split(" ")
        if word == "endings":
            given.append([int(rest[0]), [], None])
            inside = 2                                    # two refusals stand behind the sum
        elif word == "sum":
            given[-1][2] = rest[0]
        elif word != "refused":
            given[-1][1].append(bytes.fromhex(word))
        elif inside > 0:
            inside -= 1
        else:
            given.append(None)
    return given


def wrong_in_drawing(html):
    """What a drawing may not have."""
    if "disagree" in html:
        yield "the drawing says that its rows disagree"
    if html.count("<svg") != 1 or re.search(r"<script|<link|<img|<iframe|https?:|url\((?!#)|@import| on[a-z]+=", html):
        yield "the drawing is not one inline SVG that fetches nothing"
    try:
        xml.etree.ElementTree.fromstring(html[html.index("<svg"):html.index("</svg>") + 6].replace("&#160;", " "))
    except xml.etree.ElementTree.ParseError as error:
        yield "the drawing is not well-formed: %s" % error


def names_of(start):
    """The names of the lines, the head lines first."""
    heads = ["head of desk %d" % k for k in range(own_heads(start))] or ["Head"]
    return heads + ["node %d" % i for i in range(start[5])]


def places_of(rows):
    """Each content row, and its place in its line's list: the contents from the one on that the line had at the last start or `persist` says, each once."""
    held = {}
    for row in rows:
        if row[0] == "start":
            held = {}
        elif row[0] == "content":
            e, line, content = -1 if row[1] == "-" else int(row[1]), held.setdefault(row[2], []), tuple(row[4:])
            line.append((e, content))
            yield row, list(dict.fromkeys(c for _, c in line)).index(content)
        elif row[0] == "persist":
            since, line = int(row[4] if len(row) > 4 else row[1]), held[row[2]]
            held[row[2]] = [c for c in line if c[0] <= since][-1:] + [c for c in line if c[0] > since]


def wrong_beside(start, rows, second):
    """What is not as the second program has it; `start` is the start image."""
    count, images, total = second
    if [row[2] for row in rows if row[0] == "line"] != names_of(start):
        yield "its lines are not the head lines and the nodes"
    if images and kept_in(rows) != contents_over(images):
        yield "the contents of its lines are not those of the second program's endings"
    if count <= LARGE and sum_of(images_in(start, rows)) != total:
        yield "its endings, put together from the contents of its lines, are not the second program's"


def wrong_with(schedule, explain, endings, second):
    text = printed(explain + " columns", schedule)
    rows = [line.split("\t") for line in text.splitlines()]
    if any(int(row[3]) != min(place, PLACES) for row, place in places_of(rows)):
        yield "the place of a content is not that in its line's list"
    page_lines = printed(endings, schedule).splitlines()
    if lines_of_page(rows) != (page_lines if second is None else page_lines[1:]):
        yield "its rows are not the printed page"
    if second is not None:
        yield from wrong_beside(schedule[8:], rows, second)
    yield from wrong_in_drawing(page(text, "a generated schedule"))
    planted = text.replace("\nkept\t", "\nkept\t0\t0\t-\t77\t-\nkept\t", 1)
    if planted != text and "disagree" not in page(planted, "planted"):
        yield "a planted contradiction was not noticed"


def main(explain, endings, stream, images):
    given = second_endings(open(images).read())
    looked = taken = desks = followed = bad = 0
    for number, schedule in enumerate(schedules(open(stream, "rb").read())):
        looked += 1
        second = given[number] if number < len(given) else None
        if second is not None:
            taken, followed, desks = taken + 1, followed + second[0], desks + (schedule[8:11] == b"UQP")
        for wrong in wrong_with(schedule, explain, endings, second):
            print("schedule %d: %s" % (number, wrong))
            bad += 1
    if looked != len(given):
        print("%d schedules, and %d of the second program's" % (looked, len(given)))
        bad += 1
    print("%d schedules, %d of them taken (%d with a head line for each desk), %d endings" % (looked, taken, desks, followed))
    return 1 if bad else 0


if __name__ == "__main__":
    sys.exit(main(*sys.argv[1:]))
