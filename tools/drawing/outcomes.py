"""Each queue once, with its count over all endings. Ribbons lead to it; where queues alternate too often for that, a rail with dots."""
from .layout import TOP
from .marks import INK, TINTS, tw
from .words import plural, thousands

BOXES = 14                # queues drawn


def outcomes(t):
    shown = list(t.tags)[:BOXES]
    drawn = [k for k in shown if t.first[k].number < len(t.rows)]
    rails = len(t.bands) > 20 and len(t.bands) > 2 * len({b[0] for b in t.bands})
    xb = t.xr + (16 + 17 * len(drawn) if rails else 44)
    bw = max([118] + [min(190, max(tw(l, 10.8, True) for l in wrapped(t, k, 176)) + 15) for k in shown])
    boxes = placed(t, shown, rails, bw)
    if rails:
        draw_rails(t, drawn)
    else:
        ribbons(t, boxes, xb)
    for k in shown:
        box(t, k, boxes[k], xb, bw)
    s, distinct = t.d.svg, len(t.tags)
    s.text(xb, TOP - 3, plural(distinct, "different queue") if distinct > 1 else "one queue", 9.5, INK, True)
    if distinct > len(shown):
        y = max(y + h for y, h, _ in boxes.values()) + 15
        s.text(xb, y, ".. and %s" % plural(distinct - len(shown), "more queue"), 10.5, INK, True)


def rows_of(t, key):
    return [i for k, a, b in t.bands if k == key for i in range(a, b + 1)]


def placed(t, shown, rails, bw):
    """For each queue its box: top, height, lines. Beside the middle of its rows, none over another."""
    n = len(t.rows)
    boxes, wanted = {}, []
    for i, k in enumerate(shown):
        lines = wrapped(t, k, bw - 14)
        boxes[k] = [0.0, 20 + 12.5 * len(lines) + (11 if t.first[k].number >= n else 0), lines]
        rows = rows_of(t, k) or [n]
        wanted.append((0 if rails else t.y0 + sum(rows) / len(rows) * t.rh, i, k))
    low = top = t.y(-0.5) + 1
    for m, _, k in sorted(wanted):
        boxes[k][0] = max(low, m - boxes[k][1] / 2)
        low = boxes[k][0] + boxes[k][1] + 7
    limit = max(t.y(n - 0.5) - 1, top + sum(b[1] + 7 for b in boxes.values()) - 7)
    for m, _, k in sorted(wanted, reverse=True):          # push up what hangs over
        boxes[k][0] = min(boxes[k][0], limit - boxes[k][1])
        limit = boxes[k][0] - 7
    return boxes


def draw_rails(t, drawn):
    s = t.d.svg
    for j, k in enumerate(drawn):
        edge = TINTS[t.tags[k] % len(TINTS)][1]
        x, rows = t.xr + 12 + 17 * j, rows_of(t, k)
        s.line(x, t.y(-0.5) - 2, x, t.y(rows[-1]), edge, 1)
        s.text(x, TOP + 19, "Q%d" % (t.tags[k] + 1), 8.6, edge, True, "middle")
        for i in rows:
            s.dot(x, t.y(i), 3.4, edge, "ending %d: Q%d" % (i, t.tags[k] + 1))


def ribbons(t, boxes, xb):
    s = t.d.svg
    used = {k: 0.0 for k in boxes}
    for key, a, b in t.bands:
        if key not in boxes:
            continue
        fill, edge = TINTS[t.tags[key] % len(TINTS)]
        ya, yb = t.y(a - 0.5) + 1, t.y(b + 0.5) - 1
        part = (b - a + 1) / len(rows_of(t, key)) * (boxes[key][1] - 6)
        ta = boxes[key][0] + 3 + used[key]
        tb = ta + part
        used[key] += part
        m = (t.xr + xb) / 2
        up = "%.1f %.1fC%.1f %.1f %.1f %.1f %.1f %.1f" % (t.xr, ya, m, ya, m, ta, xb, ta)
        down = "%.1f %.1fC%.1f %.1f %.1f %.1f %.1f %.1f" % (xb, tb, m, tb, m, yb, t.xr, yb)
        s.add('<path d="M%sL%sZ" fill="%s" fill-opacity=".7"/>' % (up, down, fill))
        s.add('<path d="M%sM%s" fill="none" stroke="%s" stroke-width=".7" stroke-opacity=".55"/>' % (up, down, edge))


def box(t, k, where, xb, bw):
    s, (y, h, lines) = t.d.svg, where
    fill, edge = TINTS[t.tags[k] % len(TINTS)]
    tip = "queue %s, from %s" % (" | ".join(" ".join(q) or "empty" for q in k), plural(t.number[k], "ending"))
    late = t.first[k].number >= len(t.rows)
    s.rect(xb, y, bw, h, fill, edge, 1.2, 3, tip, dash="4 3" if late else None)
    s.text(xb + 7, y + 13, "Q%d" % (t.tags[k] + 1), 9.2, edge, True, title=tip)
    count = "%s of %s endings" % (thousands(t.number[k]), thousands(t.run.count)) if t.run.count > 1 else "the one ending"
    s.text(xb + bw - 7, y + 13, count, 8.8, "#444444", anchor="end", title=tip)
    for i, words in enumerate(lines):
        s.text(xb + 7, y + 26 + 12.5 * i, words, 10.8, INK, True, title=tip)
    if late:
        s.text(xb + 7, y + h - 5, "first at ending %s" % thousands(t.first[k].number), 8.8, "#444444", italic=True)


def tokens_of(t, key, q):
    """The items of one queue; what all drawn endings share is shortened as in their rows."""
    items = list(zip(t.first[key].queues[q].indices, key[q]))
    for cell in t.cells[q] or []:
        run = [(str(i), it) for i, it in cell.keys]
        if cell.kind == "many" and run[0] in items:
            at = items.index(run[0])
            if items[at:at + len(run)] == run:
                items[at:at + len(run)] = [("", "…%d…" % len(run))]
    return [it for _, it in items]


def wrapped(t, key, width):
    """A queue in at most three lines, two queues apart by a bar."""
    if not any(key):
        return ["– empty"]
    tokens = []
    for q in range(len(key)):
        tokens += (["|"] if q else []) + (tokens_of(t, key, q) or ["–"])
    lines, cur = [], ""
    for it in tokens:
        more = (cur + " " + it).strip()
        if cur and tw(more, 10.8, True) > width:
            lines.append(cur)
            cur = it
        else:
            cur = more
    lines.append(cur)
    if len(lines) > 3:
        end = " (%d items)" % sum(len(q) for q in key)
        while len(cur.split(" ")) > 1 and tw("… " + cur + end, 10.8, True) > width:
            cur = cur.split(" ", 1)[1]
        lines = lines[:2] + ["… " + cur + end]
    return lines
