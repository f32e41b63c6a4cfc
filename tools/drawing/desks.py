"""A desk's lane: its operations from begin to answer, a box or a tick for each step."""
from collections import namedtuple

from . import words
from .layout import LABEL
from .marks import CACHE_EDGE, CACHE_FILL, GREY, HALF, INK, fit, tw

# an operation: its begin, its events, and the one that answered it
Op = namedtuple("Op", "begin events end")
# where the boxes of a lane stand
Boxes = namedtuple("Boxes", "top height mid")


def desk_lane(d, k, y, h):
    s = d.svg
    s.text(LABEL - 8, y + h - (14 if d.names else 8), "desk %d" % k, 10.5, INK, True, "end")
    height = 19 if d.names else 13
    top = y + h - 3 - height
    boxes = Boxes(top, height, top + height / 2)
    s.line(d.x0, boxes.mid, d.x_stop, boxes.mid, "#e4e4e4", 1)
    ops = operations(d.run, k)
    for i, op in enumerate(ops):
        if op.end and op.end.e not in d.column:
            continue                                      # folded
        limit = d.x(ops[i + 1].begin.e) - d.cw / 2 if i + 1 < len(ops) else d.x_stop + 3
        operation(d, k, op, boxes, limit)


def operations(run, k):
    ops = []
    for ev in run.events:
        if ev.desk != k:
            continue
        if ev.begin:
            ops.append(Op(ev, [ev], None))
        elif ops:
            ops[-1].events.append(ev)
            if ev.answer is not None:
                ops[-1] = ops[-1]._replace(end=ev)
    return ops


def operation(d, k, op, boxes, limit):
    s, half = d.svg, d.cw / 2
    xa = d.x(op.begin.e) - half if op.begin.e in d.column else d.x0
    xb = d.x(op.end.e) + half if op.end else d.x_stop
    tip = in_words(d.run, k, op)
    s.rect(xa, boxes.mid - 2.5, xb - xa, 5, "#b9b9b9", title=tip)
    if not op.end:
        s.path("M%.1f %.1fl5 -4l-5 -4" % (xb - 5, boxes.mid + 4), "#ffffff", 1.4)
    for ev in op.events:
        if ev.e in d.column:
            (begin_box if ev.begin else step_box)(d, k, ev, boxes, tip)
    if op.end:
        s.line(xb - 0.5, boxes.top - 2, xb - 0.5, boxes.top + boxes.height + 2, INK, 2)
    caption(d, k, op, boxes.top - 4.5, xa, xb, limit, tip)


def names_of(op):
    """Long and short."""
    kind, item, queue = op.begin.begin
    on = " on %s" % queue if queue else ""
    return (kind + on, "deq") if kind == "dequeue" else ("enqueue " + item + on, "enq " + item)


def in_words(run, k, op):
    if op.end:
        how = "answered %s at event %d" % (op.end.answer, op.end.e)
    else:
        how = "not answered" + (", next step %s" % run.next[k] if k in run.next else "")
    return "desk %d: %s, begun at event %d, %s" % (k, names_of(op)[0], op.begin.e, how)


def begin_box(d, k, ev, boxes, tip):
    s, x, half = d.svg, d.x(ev.e), d.cw / 2
    if d.names:
        s.rect(x - half + 1, boxes.top, d.cw - 2, boxes.height, "#ffffff", INK, 1.2, 3, tip)
        s.path("M%.1f %.1fl6 4.5l-6 4.5z" % (x - 2.5, boxes.mid - 4.5), INK, 0.1, INK, title=tip)
    else:
        s.rect(x - half, boxes.top - 1, max(2.2, d.cw * 0.7), boxes.height + 2, INK, title=tip)


def step_box(d, k, ev, boxes, tip):
    s, x, half = d.svg, d.x(ev.e), d.cw / 2
    stored, flushed, saved = bool(ev.contents), ev.flush is not None, ev.persist is not None
    what = "event %d, desk %d: %s, %s" % (ev.e, k, ev.step, words.step(d.run, ev.step))
    if ev.answer is not None:
        what += "; answers " + ev.answer
    if d.names:
        s.rect(x - half + 1, boxes.top, d.cw - 2, boxes.height,
               INK if saved else HALF if flushed else CACHE_FILL if stored else "#ffffff", INK if saved or not stored else CACHE_EDGE,
               1.3 if stored else 0.8, 1.5, what)
        s.text(x, boxes.mid + 3.4, ev.step, min(10.2, d.cw * 0.44), "#ffffff" if saved else INK,
               stored or flushed or saved, "middle", title=what)
        return
    w = max(1.1, d.cw * 0.45)
    if saved or flushed:
        s.rect(x - w * 0.8, boxes.top, w * 1.6, boxes.height, INK if saved else HALF, title=what)
    elif stored:
        s.rect(x - w / 2, boxes.top + 1.5, w, boxes.height - 3, CACHE_EDGE, title=what)
    else:
        s.rect(x - w / 2, boxes.top + 3.5, w, boxes.height - 7, "#5d5d5d", title=what)


def caption(d, k, op, y, xa, xb, limit, tip):
    """The operation above its begin, the answer above its end, as much as there is room for."""
    s, size = d.svg, 10.2 if d.names else 9.0
    name, short = names_of(op)
    right = min(xb, limit - 7)
    room = right - xa
    if op.end:
        answer = "→ " + op.end.answer
        left = fit([name, short, ""], room - tw(answer, size, True) - 5, size)
        if left:
            s.text(xa + 1, y, left, size, INK, title=tip)
            s.text(right, y, answer, size, INK, True, "end", title=tip)
        else:
            one = fit([short + " → " + op.end.answer, op.end.answer, ""], limit - 5 - xa, size)
            s.text(xa + 1, y, one, size, INK, title=tip)
        return
    then = "before " + d.run.next[k] if k in d.run.next else "no answer"
    left = fit([name, short], room - 4, size)
    s.text(xa + 1, y, left, size, INK, title=tip)
    if room - tw(left, size) - 12 > tw(then, size):
        s.text(xb - 5, y, then, size, GREY, anchor="end", italic=True, title=tip)
