"""What the marks mean: one strip below the drawing."""
from .columns import Content
from .layout import LABEL
from .marks import CACHE_EDGE, CACHE_FILL, HALF, INK, PALE, RULE, tw


class Strip:
    def __init__(self, d, y):
        self.s, self.left = d.svg, LABEL - 56
        self.right = max(d.svg.right, 700)
        self.s.line(self.left, y - 14, self.right, y - 14, RULE, 1)
        self.x, self.y = self.left, y + 4

    def entry(self, width, words, paint):
        whole = width + 6 + tw(words, 9.3)
        if self.x + whole > self.right:
            self.x, self.y = self.left, self.y + 20
        paint(self.x, self.y - 3.4)
        self.s.text(self.x + width + 6, self.y, words, 9.3, "#3a3a3a")
        self.x += whole + 20


def legend(d, y):
    strip = Strip(d, y)
    steps(d, strip)
    contents(d, strip)


def steps(d, strip):
    s = d.svg

    def box(width, name, fill, edge, sw, ink, bold, tick):
        def paint(x, m):
            if d.names:
                s.rect(x, m - 8, width, 16, fill, edge, sw, 1.5)
                s.text(x + width / 2, m + 3.2, name, 9, ink, bold, "middle")
            else:
                tick(x, m)
        return paint

    strip.entry(22, "step", box(22, "A5", "#ffffff", INK, 0.8, INK, False, lambda x, m: s.rect(x + 9, m - 3, 2, 6, "#5d5d5d")))
    strip.entry(22, "step that changed a line's content", box(
        22, "A9", CACHE_FILL, CACHE_EDGE, 1.3, INK, True, lambda x, m: s.rect(x + 9, m - 5, 2, 10, CACHE_EDGE)))
    if any(d.flushes.values()):
        strip.entry(24, "step that flushed a line", box(
            24, "A10", HALF, INK, 0.8, INK, True, lambda x, m: s.rect(x + 8, m - 6, 3, 12, HALF)))
    strip.entry(24, "step that persisted a line", box(
        24, "F10", INK, INK, 1, "#ffffff", True, lambda x, m: s.rect(x + 8, m - 6, 3, 12, INK)))
    strip.entry(24, "operation, from begin to answer",
                lambda x, m: (s.rect(x, m - 2.5, 24, 5, "#b9b9b9"), s.line(x + 24, m - 7, x + 24, m + 7, INK, 2)))


def contents(d, strip):
    s = d.svg
    head = "a head line" if d.run.own_heads else "Head"
    strip.entry(44, "content: linked (■) or not (□), #index, item; %s has an index only" % head,
                lambda x, m: (s.rect(x - 2, m - 8, 46, 16, "#ffffff", INK, 1, 2), s.content(x + 3, m + 3.4, Content("1", "2", "6", ""), 9.5)))
    strip.entry(16, "still in the cache", lambda x, m: s.rect(x, m - 7, 16, 14, CACHE_FILL, CACHE_EDGE, 1.2, 2))
    strip.entry(16, "persisted", lambda x, m: s.rect(x, m - 7, 16, 14, "#ffffff", INK, 1.2, 2))
    strip.entry(16, "past, can no longer come back", lambda x, m: s.rect(x, m - 7, 16, 14, "#f4f4f4", PALE, 0.8, 2))
    if any(d.flushes.values()):
        strip.entry(12, "flushed, not yet assured", lambda x, m: s.diamond(x + 6, m, 6, HALF))
    strip.entry(12, "persisted by a step", lambda x, m: s.diamond(x + 6, m, 6, INK))
    strip.entry(12, "written back early", lambda x, m: s.diamond(x + 6, m, 6, "#ffffff"))
    if d.gaps:
        strip.entry(6, "this item is not recovered in that ending", lambda x, m: s.dot(x + 3, m, 1.6, "#8a8a8a"))
    if d.run.kept:
        strip.entry(46, "branches of a line: white its oldest content (the last known to be in memory), black the present one",
                    lambda x, m: (s.badge(x + 7, m, 0, 3), s.badge(x + 23, m, 1, 3), s.badge(x + 39, m, 2, 3)))
