"""The page: heading, one sentence, the drawing. Or the drawing alone."""
from html import escape

from . import frame, words
from .columns import Run
from .desks import desk_lane
from .endings import endings
from .layout import LABEL, TOP, Layout
from .legend import legend
from .lines import line_lane, untouched_lane
from .marks import RED, Svg

FONT = 'font-family:Helvetica,Arial,"Liberation Sans",sans-serif'
STYLE = """
:root{color-scheme:light}html{background:#fff}body{margin:18px 22px;%s;color:#1b1b1b}
h1{font-size:21px;margin:0 0 3px;letter-spacing:-.2px}p{font-size:13.5px;margin:0 0 12px;color:#3a3a3a;max-width:96em;text-wrap:pretty;line-height:1.4}
p b{color:#1b1b1b}g:target text{font-weight:700;text-decoration:underline}svg{display:block;%s;font-variant-numeric:tabular-nums}
@media print{@page{size:%s landscape;margin:9mm}body{margin:0}svg{width:100%%;height:auto;max-height:%dmm}
h1{font-size:13pt}p{font-size:9pt;margin-bottom:2mm}*{-webkit-print-color-adjust:exact;print-color-adjust:exact}}
"""
PATTERNS = ('<defs><pattern id="past" width="6" height="6" patternUnits="userSpaceOnUse" patternTransform="rotate(45)">'
            '<rect width="6" height="6" fill="#ececec"/><rect width="2" height="6" fill="#dadada"/></pattern>'
            '<pattern id="no" width="7" height="7" patternUnits="userSpaceOnUse" patternTransform="rotate(-45)">'
            '<rect width="7" height="7" fill="#fff"/><rect width="2.4" height="7" fill="#1b1b1b"/></pattern></defs>')
LANES = {"desk": desk_lane, "line": line_lane, "untouched": untouched_lane}


def draw(run):
    """The layout with everything drawn."""
    d = Layout(run)
    d.table, d.gaps = None, False
    frame.frame(d)
    for lane in d.lanes:
        LANES[lane.kind](d, lane.which, lane.y, lane.h)
    frame.stop(d)
    if run.count is not None:
        endings(d)
    elif run.refused:
        frame.refusal(d, max(d.x_stop + 30, d.fan_right) + 28, TOP + 12)
    y = max(d.svg.bottom, d.y_end) + 26
    for told in run.disagreements({line: d.live(line) for line in run.lines}):
        d.svg.text(LABEL - 56, y - 4, "The columns disagree: " + told, 11, RED, True)
        y += 18
    legend(d, y)
    return d


def lead(run, d):
    """The sentence below the heading."""
    t, n, count = run.sizes
    where = ", ".join((words.plural(t, "desk"), words.plural(n, "node"), words.plural(count, "event")))
    if run.refused:
        return where + ". " + refused(run)
    where += ", stopped at once. " if count == 0 else ", stopped after event %d. " % (count - 1)
    b = run.branched
    if not b:
        return where + "Nothing is left in the cache: <b>one ending</b>."
    each = ", ".join("%s: %s" % (run.name(line), words.plural(len(run.kept[line]), "content")) for line in b[:4])
    queues = len(d.table.tags)
    made = "one and the same queue" if queues == 1 else words.plural(queues, "different queue").replace(" ", "&#160;", 1)
    return where + "<b>%s still in the cache</b> (%s%s), hence <b>%s</b>. Recovery makes <b>%s</b> of them." % (
        words.plural(len(b), "line is", "lines are"), each, ", .." if len(b) > 4 else "", words.plural(run.count, "ending"), made)


def refused(run):
    return "<b>Refused %d at %d.</b> %s" % (run.refused[0], run.refused[1], escape(words.refusal(run)))


def figure(run, title, alone):
    """The SVG, its sentence, and the paper that it goes on with its height there."""
    if run.sizes is None:
        return refused_at_once(run, alone), refused(run), "A4", 150
    d = draw(run)
    w, h = d.svg.right + 8, d.svg.bottom + 10
    paper, tall = ("A4", 168) if w <= 1340 and h <= 820 else ("A3", 252)
    sentence = lead(run, d)
    svg = ('<svg%s width="%.0f" height="%.0f" viewBox="0 18 %.0f %.0f" role="graphics-document document" aria-labelledby="t" aria-describedby="d">'
           '<title id="t">%s</title><desc id="d">%s</desc>%s\n%s\n</svg>'
           % (attributes(alone), w, h - 18, w, h - 18, escape(title), sentence.replace("<b>", "").replace("</b>", ""), PATTERNS, "\n".join(d.svg.out)))
    return svg, sentence, paper, tall


def attributes(alone):
    """What a file of its own needs."""
    return " xmlns=\"http://www.w3.org/2000/svg\" style='background:#fff;%s'" % FONT if alone else ""


def refused_at_once(run, alone):
    s = Svg()
    frame.panel(s, 1, 1, 420, 74, run)
    s.text(15, 58, "No event was run: there is nothing to draw.", 12)
    return ('<svg%s width="424" height="78" viewBox="0 0 424 78" role="graphics-document document">'
            "<title>%s</title>%s</svg>" % (attributes(alone), escape(words.refusal(run)), "".join(s.out)))


def page(text, title):
    svg, sentence, paper, tall = figure(Run(text), title, False)
    return ('<!DOCTYPE html>\n<html lang="en"><head><meta charset="utf-8"><meta name="viewport" content="width=device-width">'
            "<title>%s</title><style>%s</style></head>\n<body><h1>%s</h1><p>%s</p>\n%s\n</body></html>\n"
            % (escape(title), STYLE % (FONT, FONT, paper, tall), escape(title), sentence, svg))


def picture(text, title):
    """The drawing alone, as a file of its own."""
    return figure(Run(text), title, True)[0] + "\n"
