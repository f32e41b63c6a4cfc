"""What stands behind and around the lanes: ruler, start, what is not drawn, the stop."""
from . import words
from .layout import LABEL, TOP
from .marks import GREY, INK, PALE, fit, tw


def frame(d):
    ruler(d)
    for lane in d.lanes:
        d.svg.line(LABEL - 56, lane.y + lane.h, d.x_stop, lane.y + lane.h, "#ececec", 0.8)
    if d.run.crashed:
        last = d.run.first - 1
        column(d, d.x_before, d.x_start - d.x_before - 6,
               ["events 0 to %d, before the last start" % last, "events 0 to %d, before" % last, "before"],
               "events 0 to %d stand before the last start and are not drawn" % last)
    if d.folded:
        column(d, d.x_fold + 2, 26, ["events %d to %d, folded" % (d.run.events[0].e, d.shown[0].e - 1), "folded"])
    start(d)
    hairlines(d)


def ruler(d):
    s = d.svg
    s.text(LABEL - 8, TOP + 6, "event", 9, GREY, anchor="end")
    every = 1 if d.cw >= 15 else 5 if d.cw >= 5 else 10 if d.cw >= 2.5 else 50
    for ev in d.shown:
        if ev.e % every == 0:
            x = d.x(ev.e)
            s.text(x, TOP + 6, ev.e, 9 if d.cw >= 15 else 8.5, GREY, anchor="middle")
            if every > 1:
                s.line(x, TOP + 9, x, d.y_end, "#f0f0f0", 1)


def column(d, x, w, variants, title=None):
    """A hatched column that stands for events which are not drawn."""
    d.svg.hatched(x, TOP + 12, w, d.y_end - TOP - 12, "past", PALE, ".8", title)
    d.svg.upright(x + w / 2, (TOP + 12 + d.y_end) / 2, fit(variants, d.y_end - TOP - 30, 10), 10, "#444444")


def start(d):
    s, run = d.svg, d.run
    s.line(d.x_start, TOP - 6, d.x_start, d.y_end, INK, 1.6)
    s.text(d.x_start + 4, TOP - 3, "recovery" if run.crashed else "start", 9.5, INK, True)
    queues = " | ".join(q if q != "-" else "–" for q in run.queues)
    sizes = " and ".join(str(len(q.split(" "))) for q in run.queues)
    dummies = " and ".join(run.dummies)
    s.text(d.x_start + 4, TOP + 8, fit(["queue " + queues, "queue of " + sizes], d.x_fold - d.x_start - 4, 9), 9, GREY,
           title="queue at the start: %s; the dummy is node %s" % (" | ".join(run.queues), dummies))


def hairlines(d):
    """From the step that did it to the line it was done to; a write-back has no desk."""
    if not d.names:
        return
    for ev in d.shown:
        goal = [d.line_y[line] for line, _, _ in ev.contents]
        goal += [d.line_y[which[0]] for which in (ev.persist, ev.flush) if which]
        if goal:
            y0 = d.desk_y[ev.desk] + 37 if ev.desk is not None else TOP + 10
            d.svg.line(d.x(ev.e), y0, d.x(ev.e), max(goal), "#8c8c8c", 0.9, "1.5 2.5")


def stop(d):
    s, run, x = d.svg, d.run, d.x_stop
    if run.stopped_early:
        s.hatched(x, TOP + 12, 30, d.y_end - TOP - 12, "no", INK, "1.4", words.refusal(run))
        told = fit(["event %d is refused" % run.refused[1], "refused"], d.y_end - TOP - 40, 10.5, True)
        s.upright(x + 15, (TOP + 12 + d.y_end) / 2, told, 10.5, INK, True)
        s.text(x + 15, TOP + 6, run.refused[1], 9.5, INK, True, "middle")
        return
    s.line(x, TOP - 6, x, d.y_end, INK, 2.4)
    s.text(x - 4, TOP - 3, "stop", 9.5, INK, True, "end")
    if run.kept:
        s.text(x + 8, TOP - 3, "what each line may hold", 9.5, INK, True)
        n = len(run.branched)
        s.text(x + 8, TOP + 8, "%s in the cache" % (words.plural(n, "line") + " still") if n else "nothing is left in the cache", 9, GREY)


def refusal(d, x, y):
    """The panel that stands where the endings would."""
    s, run = d.svg, d.run
    lines, cur = [], ""
    for w in words.refusal(run).split(" "):
        if tw(cur + " " + w, 12) > 300:
            lines.append(cur)
            cur = w
        else:
            cur = (cur + " " + w).strip()
    lines.append(cur)
    h = 46 + 17 * len(lines) + 26
    panel(s, x, y, 330, h, run)
    for i, l in enumerate(lines):
        s.text(x + 14, y + 54 + 17 * i, l, 12, INK)
    s.text(x + 14, y + h - 13, "The run is shown up to there; it has no endings." if run.stopped_early else
           "The whole run is shown; its endings are not listed.", 10, GREY, italic=True)


def panel(s, x, y, w, h, run):
    s.rect(x, y, w, h, "#ffffff", INK, 2, 4)
    s.rect(x, y, w, 32, INK, INK, 2, 4)
    s.text(x + 14, y + 21.5, "refused %d at %d" % run.refused[:2], 14, "#ffffff", True)
