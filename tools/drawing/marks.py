"""Marks, colours and measured text: what the drawing is made of."""
from html import escape

from .columns import LETTERS

INK, GREY, PALE, RULE = "#1b1b1b", "#6a6a6a", "#a9a9a9", "#dcdcdc"
CACHE_FILL, CACHE_EDGE = "#ffe9b8", "#8a5a00"
HALF = "#9a9a9a"          # a flush: asked for, not yet assured
RED = "#b00020"
# tints of the queues (fill, edge), told apart by their tag Q1, Q2, .. as well
TINTS = [("#d9ecf7", "#0a6aa6"), ("#f7ddd0", "#b34a00"), ("#d8efe4", "#00785a"), ("#efdfeb", "#8d3c70"),
         ("#f3f0c4", "#716a00"), ("#dcdff3", "#3b4a9c"), ("#e4e4e4", "#4a4a4a"), ("#e9dccb", "#6f4a1d")]

# widths of Helvetica's glyphs in thousandths, for what does not stand here 556
WIDTHS = {}
for chars, w in (("ijl'", 222), (" .,:;ftI/!|·", 278), ("-()r", 333), ("csvxyzkJ", 500), ("mM", 833),
                 ("w", 722), ("ABEKPSVXY", 667), ("CDHNRUw", 722), ("GOQ", 778), ("FTZ", 611), ("W", 944),
                 ("→…", 1000), ("×=+", 584)):
    for ch in chars:
        WIDTHS[ch] = w


def tw(text, size, bold=False):
    """How wide a text is."""
    return sum(WIDTHS.get(c, 556) for c in str(text)) * size / 1000 * (1.06 if bold else 1)


def fit(variants, width, size, bold=False):
    """The first that is no wider, or nothing."""
    for v in variants:
        if tw(v, size, bold) <= width:
            return v
    return ""


def titled(title):
    return "<title>%s</title>" % escape(title) if title else ""


class Svg:
    """Elements one after the other, and how far they reach."""

    def __init__(self):
        self.out = []
        self.right = self.bottom = 0

    def add(self, s):
        self.out.append(s)

    def see(self, x, y):
        self.right, self.bottom = max(self.right, x), max(self.bottom, y)

    def close(self, name, opened, title):
        self.add(opened + (">%s</%s>" % (titled(title), name) if title else "/>"))

    def rect(self, x, y, w, h, fill="none", edge=None, sw=1.0, rx=0.0, title=None, dash=None):
        self.see(x + w, y + h)
        a = '<rect x="%.1f" y="%.1f" width="%.1f" height="%.1f" fill="%s"' % (x, y, max(w, 0.3), h, fill)
        if edge:
            a += ' stroke="%s" stroke-width="%.2g"' % (edge, sw)
        if rx:
            a += ' rx="%.1f"' % rx
        if dash:
            a += ' stroke-dasharray="%s"' % dash
        self.close("rect", a, title)

    def path(self, d, edge=INK, sw=1.0, fill="none", dash=None, title=None):
        a = '<path d="%s" fill="%s" stroke="%s" stroke-width="%.2g"' % (d, fill, edge, sw)
        if dash:
            a += ' stroke-dasharray="%s"' % dash
        self.close("path", a, title)

    def line(self, x1, y1, x2, y2, edge=INK, sw=1.0, dash=None):
        self.see(max(x1, x2), max(y1, y2))
        self.path("M%.1f %.1fL%.1f %.1f" % (x1, y1, x2, y2), edge, sw, dash=dash)

    def text(self, x, y, s, size=10.0, fill=INK, bold=False, anchor="start", italic=False, turn=None, title=None):
        if s == "":
            return
        width = tw(s, size, bold)
        self.see(x + (width if anchor == "start" else width / 2 if anchor == "middle" else 0), y + 2)
        a = '<text x="%.1f" y="%.1f" font-size="%.3g" fill="%s"' % (x, y, size, fill)
        if bold:
            a += ' font-weight="700"'
        if italic:
            a += ' font-style="italic"'
        if anchor != "start":
            a += ' text-anchor="%s"' % anchor
        if turn:
            a += ' transform="rotate(%d %.1f %.1f)"' % (turn, x, y)
        self.add(a + ">" + titled(title) + escape(str(s)) + "</text>")

    def badge(self, x, y, place, of, r=6.5, title=None):
        """A content's letter in a circle: white the oldest, black the newest."""
        fill, ink = ("#ffffff", INK) if place == 0 else (INK, "#ffffff") if place == of - 1 else ("#c4c4c4", INK)
        letter = LETTERS[place] if place < 16 else "+"
        self.see(x + r, y + r)
        self.add('<g>%s<circle cx="%.1f" cy="%.1f" r="%.1f" fill="%s" stroke="%s" stroke-width="1"/>'
                 '<text x="%.1f" y="%.1f" font-size="%.3g" font-weight="700" fill="%s" text-anchor="middle">%s</text></g>'
                 % (titled(title), x, y, r, fill, INK, x, y + r * 0.47, r * 1.45, ink, letter))

    def diamond(self, x, y, r, fill, title=None):
        self.see(x + r, y + r)
        self.path("M%.1f %.1fl%.1f %.1fl%.1f %.1fl%.1f %.1fz" % (x, y - r, r, r, -r, r, -r, -r), INK, 1.2, fill, title=title)

    def dot(self, x, y, r, fill, title=None):
        self.close("circle", '<circle cx="%.1f" cy="%.1f" r="%.1f" fill="%s"' % (x, y, r, fill), title)

    def hatched(self, x, y, w, h, pattern, edge, sw, title=None):
        self.close("rect", '<rect x="%.1f" y="%.1f" width="%.1f" height="%.1f" fill="url(#%s)" stroke="%s" stroke-width="%s"'
                   % (x, y, w, h, pattern, edge, sw), title)

    def upright(self, x, mid, words, size, fill, bold=False):
        """A text turned upright on white, in the middle of a column at x."""
        self.rect(x - 9, mid - tw(words, size, bold) / 2 - 6, 18, tw(words, size, bold) + 12, "#ffffff")
        self.text(x + 3.5, mid, words, size, fill, bold, "middle", turn=-90)

    def content(self, x, y, c, size=10.0, fill=INK, measure=False, title=None):
        """The linked flag as a square, #index, item in bold, the queue where there are two; y is the baseline. Gives the width."""
        w, sq = 0.0, size * 0.62
        if c.linked != "-":
            if not measure:
                self.rect(x + 0.5, y - sq - 0.3, sq, sq, fill if c.linked == "1" else "#ffffff", fill, 1,
                          title="linked" if c.linked == "1" else "not linked")
            w += sq + size * 0.42
        for gap, words, bold in ((0, "#" + c.index, False), (0.55, c.item, True), (0.4, "q" + c.queue, False)):
            if words not in ("-", "q"):
                w += size * gap
                if not measure:
                    self.text(x + w, y, words, size, fill, bold, title=title)
                w += tw(words, size, bold)
        return w

    def width(self, c, size):
        return self.content(0, 0, c, size, measure=True)
