"""Every ending: the tree of choices, and the printed page's own lines."""
from collections import namedtuple

from .columns import LETTERS
from .layout import TOP
from .marks import GREY, INK, RED, TINTS, tw
from .outcomes import outcomes
from .words import in_words, plural, queue_words, thousands

SHOWN = 64                # endings drawn

# a column of the recovered queue: "one" item, or "many" that every ending has, with its place
Cell = namedtuple("Cell", "kind keys x w")


def key_of(e):
    """What tells queues apart."""
    return tuple(tuple(q.items) for q in e.queues)


class Table:
    """The columns of the tree and of the page, and the rows drawn."""

    def __init__(self, d):
        self.d, self.run = d, d.run
        self.rows = d.run.endings[:SHOWN]
        self.lines = d.run.branched
        self.sizes = [len(d.run.kept[line]) for line in self.lines]
        n = len(self.rows)
        self.rh = 21.0 if n <= 16 else 17.0 if n <= 32 else 14.2
        self.br = 6.5 if self.rh > 15 else 5.6
        self.x = max(d.fan_right + 30, d.x_stop + 136)
        self.y0 = TOP + 30 + self.rh / 2
        step = 30.0 if len(self.lines) <= 8 else 25.0
        self.xs = [self.x + 16 + i * step for i in range(len(self.lines))]
        self.xk = (self.xs[-1] if self.xs else self.x - 10) + 34
        self.queues_apart()
        self.place_queues()

    def y(self, i):
        return self.y0 + i * self.rh

    def choice(self, e, j):
        """An ending's letter in column j, its place, and the content in words; ? where the rows have none."""
        letter = e.letters[j] if j < len(e.letters) else "?"
        kept, place = self.run.kept[self.lines[j]], LETTERS.find(letter)
        there = 0 <= place < len(kept)
        return letter, place if there else None, in_words(kept[place]) if there else "no content of the line"

    def queues_apart(self):
        """The different queues over all endings, in the order in which they first appear, and neighbouring rows that share one."""
        self.tags, self.number, self.first = {}, {}, {}
        for e in self.run.endings:
            key = key_of(e)
            self.tags.setdefault(key, len(self.tags))
            self.number[key] = self.number.get(key, 0) + 1
            self.first.setdefault(key, e)
        self.bands = []
        for i, e in enumerate(self.rows):
            if self.bands and self.bands[-1][0] == key_of(e):
                self.bands[-1][2] = i
            else:
                self.bands.append([key_of(e), i, i])

    # ---- head indices and items: for each queue a column and cells

    def place_queues(self):
        self.heads, self.queue_xs, self.cells = [], [], []
        x = self.xk
        for q in range(len(self.rows[0].queues) if self.rows else 1):
            width = max([tw(e.queues[q].head, self.d.fs + 0.5) for e in self.rows] + [22])
            x += 14 + width
            self.heads.append(x)
            x += 16
            self.queue_xs.append(x)
            x += self.place_cells(q, x)
        self.xr = x + 12 + tw("Q%d" % len(self.tags), 8.6, True)

    def place_cells(self, q, x0):
        """Columns in rising index, so that a gap shows; runs that every ending has shrink. Gives the width."""
        have = [set(zip((int(i) for i in e.queues[q].indices), e.queues[q].items)) for e in self.rows]
        keys = sorted(set().union(*have))
        groups, run = [], []
        for k in keys + [None]:
            if k is not None and all(k in h for h in have):
                run.append(k)
                continue
            groups += [[run[0]], run[1:-1], [run[-1]]] if len(run) > 3 else [[k] for k in run]
            run = []
            if k is not None:
                groups.append([k])
        cells, x = [], x0
        for ks in groups:
            kind = "one" if len(ks) == 1 else "many"
            w = max(9, tw(ks[0][1], 9.6) if kind == "one" else tw("…%d…" % len(ks), 8.2))
            cells.append(Cell(kind, ks, x, w))
            x += w + 6
        wide = x - x0 > 330                               # too wide: as text, cut short
        self.cells.append(None if wide else cells)
        return max(200 if wide else x - x0, 60)


def endings(d):
    t = Table(d)
    d.table = t
    headings(t)
    bands(t)
    tree(t)
    for i, e in enumerate(t.rows):
        row(t, i, e)
    outcomes(t)
    below(t)


def headings(t):
    s = t.d.svg
    s.text(t.x, TOP - 3, "every ending", 9.5, INK, True)
    for cx, line in zip(t.xs, t.lines):
        *what, which = t.run.label(line).split(" ")
        s.text(cx, TOP + 9, " ".join(what), 8, GREY, anchor="middle")
        s.text(cx, TOP + 19, which, 8.7, GREY, anchor="middle")
    s.text(t.xk, TOP + 19, "no.", 8.6, GREY, anchor="end")
    for i, (xh, xq) in enumerate(zip(t.heads, t.queue_xs)):
        s.text(xh, TOP + 19, "head", 8.6, GREY, anchor="end")
        s.text(xq, TOP + 19, "recovered queue" if len(t.heads) == 1 else "queue %d" % i, 8.6, GREY)


def bands(t):
    s, left = t.d.svg, t.xk - tw("0000", 9.5) - 2
    for key, a, b in t.bands:
        fill, edge = TINTS[t.tags[key] % len(TINTS)]
        s.rect(left, t.y(a - 0.5) + 1, t.xr - left, (b - a + 1) * t.rh - 2, fill, None, 1, 2.5)
        s.text(t.xr - 5, t.y(a) + 3.2, "Q%d" % (t.tags[key] + 1), 8.6, edge, True, "end")


def tree(t):
    """A branch at the first ending of each run of equal choices, a badge there and a grey letter where it goes on."""
    s, rows = t.d.svg, t.rows
    starts = [[i for i, e in enumerate(rows) if i == 0 or e.letters[:j + 1] != rows[i - 1].letters[:j + 1]]
              for j in range(len(t.lines))]
    for j, cx in enumerate(t.xs):
        px = t.xs[j - 1] if j else t.x - 4
        for i in starts[j]:
            parent = max(p for p in starts[j - 1] if p <= i) if j else 0
            if i == parent:
                s.line(px + (t.br if j else 0), t.y(i), cx - t.br, t.y(i), "#555555", 1)
            else:
                prev = max(p for p in starts[j] if p < i)
                s.path("M%.1f %.1fV%.1fH%.1f" % (px + (cx - px) * 0.5, t.y(prev), t.y(i), cx - t.br), "#555555", 1)
    for j, (cx, line) in enumerate(zip(t.xs, t.lines)):
        for i, e in enumerate(rows):
            letter, place, content = t.choice(e, j)
            tip = "ending %d: %s took branch %s, %s" % (e.number, t.run.name(line), letter, content)
            if place is not None and i in starts[j]:
                s.badge(cx, t.y(i), place, t.sizes[j], t.br, tip)
            else:
                s.text(cx, t.y(i) + 2.8, letter, 8.2, "#9a9a9a" if place is not None else RED, anchor="middle", title=tip)


def row(t, i, e):
    """The printed page's line: number, head index, queue."""
    s, y = t.d.svg, t.y(i)
    if t.xs:
        s.line(t.xs[-1] + t.br, y, t.xk - tw(e.number, 9.5, True) - 4, y, "#9a9a9a", 0.8)
    choices = [(t.run.name(line),) + t.choice(e, j) for j, line in enumerate(t.lines)]
    chosen = ", ".join("%s %s (%s)" % (name, letter, content) for name, letter, _, content in choices)
    s.add('<g id="ending-%d">' % e.number)
    s.text(t.xk, y + 3.4, e.number, 9.6, INK, True, "end", title="ending %d: %s; head index %s, recovered queue %s" % (
        e.number, chosen or "no line has a choice", " | ".join(q.head for q in e.queues), queue_words(e.queues)))
    for q, queue in enumerate(e.queues):
        s.text(t.heads[q], y + 3.4, queue.head, 9.6, INK, False, "end")
        queue_row(t, e, q, y + 3.4)
    s.add("</g>")


def queue_row(t, e, q, y):
    s, items, x0 = t.d.svg, e.queues[q].items, t.queue_xs[q]
    full = "ending %d recovers to %s" % (e.number, " ".join(items) or "an empty queue")
    if not items:
        s.text(x0, y, "– empty", 9.2, GREY, title=full)
    elif t.cells[q] is None:
        s.text(x0, y, shortened(items), 9.6, INK, title=full)
    else:
        have = set(zip((int(i) for i in e.queues[q].indices), items))
        for cell in t.cells[q]:
            queue_cell(t, cell, have, y, full)


def queue_cell(t, cell, have, y, full):
    s = t.d.svg
    if cell.kind == "many":
        s.text(cell.x + cell.w / 2, y, "…%d…" % len(cell.keys), 8.2, GREY, anchor="middle", title=" ".join(k[1] for k in cell.keys))
    elif cell.keys[0] in have:
        s.text(cell.x + cell.w, y, cell.keys[0][1], 9.6, INK, False, "end", title=full)
    else:
        t.d.gaps = True
        s.dot(cell.x + cell.w - min(cell.w, tw("0", 9.6)) / 2, y - 3.2, 1.5, "#8a8a8a", "%s is not recovered" % cell.keys[0][1])


def shortened(items):
    """Items in the middle left out until the text fits."""
    for k in range(len(items), 0, -1):
        words = " ".join(items) if k == len(items) else (
            " ".join(items[:k // 2]) + " … " + " ".join(items[-(k - k // 2):]) + " (%d)" % len(items))
        if tw(words, 9.6) <= 195:
            break
    return words


def below(t):
    """What is left, and whether every choice was followed."""
    s, run, n = t.d.svg, t.run, len(t.rows)
    y = t.y(n - 0.5) + 15
    if len(run.endings) > n:
        s.text(t.x if t.xs else t.xk - 12, y, ".. and %s more" % thousands(len(run.endings) - n), 10.5, INK, True)
        y += 14
    product = (" × ".join(str(k) for k in t.sizes) + " = " if len(t.sizes) > 1 else "") + plural(run.count, "ending")
    if run.followed():
        s.text(t.x, y, product + ", all followed", 9.5, GREY)
    else:
        s.text(t.x, y, product + ", NOT each followed once: the columns disagree", 11, RED, True)
