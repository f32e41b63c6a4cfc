"""A line's lane: a block for each content, a diamond where it was persisted, the fan at the stop."""
from .columns import LETTERS
from .layout import LABEL
from .marks import CACHE_EDGE, CACHE_FILL, GREY, HALF, INK, PALE, tw
from .words import in_words


def untouched_lane(d, lines, y, h):
    s, mid = d.svg, y + h / 2
    name = d.run.name(lines[0]) + "–" + d.run.name(lines[-1]).split(" ")[-1]
    s.text(LABEL - 8, mid + 3, name, 8.5, GREY, anchor="end")
    s.line(d.x_start, mid, d.x_stop, mid, PALE, 0.8, "1 4")
    tip = "; ".join("%s: %s" % (d.run.name(line), in_words(d.blocks[line][-1].content)) for line in lines)
    words = "%d untouched" % len(lines)
    s.rect(d.x_start + 4, mid - 6, tw(words, 8.5) + 6, 12, "#ffffff")
    s.text(d.x_start + 7, mid + 3, words, 8.5, GREY, italic=True, title=tip)


def line_lane(d, line, y, h):
    s, mid = d.svg, y + h / 2
    kept = d.run.kept.get(line, [])
    s.text(LABEL - 8, mid + 3.5, d.run.label(line), 10.5 if d.names else 9.5,
           INK if line in d.touched else GREY, len(kept) > 1, "end", title="line %d" % line)
    if line in d.touched:
        for block in d.blocks[line]:
            block_mark(d, line, block, mid)
        for e, by in d.flushes[line]:
            diamond(d, line, e, mid, HALF, "is flushed", ", by " + by)
        for e, p in d.marks[line]:
            if p.by == "write-back":
                diamond(d, line, e, mid, "#ffffff", "is written back", "")
            else:
                diamond(d, line, e, mid, INK, "is persisted", ", by " + p.by + (", as it was at event %d" % p.since if p.since < e else ""))
    else:
        still(d, line, mid)
    fan(d, line, mid, kept)


def still(d, line, mid):
    """A line that nothing happened to."""
    s, c = d.svg, d.blocks[line][-1].content
    s.line(d.x_start, mid, d.x_stop, mid, PALE, 0.9)
    s.rect(d.x_start + 5, mid - 7, s.width(c, d.fs) + 8, 14, "#ffffff")
    s.content(d.x_start + 9, mid + 3.5, c, d.fs, GREY, title="%s is not touched: %s" % (d.run.name(line), in_words(c)))


def ends_of(d, block):
    """Where a block begins and ends; nothing where it is folded away."""
    first = d.run.first
    xa = d.x_start + 4 if block.a is None else d.x_fold - 2 if block.a < first else d.x(block.a)
    xb = d.x_stop if block.b is None else d.x_fold - 2 if block.b < first else d.x(block.b)
    if d.folded:
        if block.b is not None and block.b >= first and block.b not in d.column:
            return None
        if block.a is not None and block.a >= first and block.a not in d.column:
            xa = d.x_fold + 30
    return (xa, xb) if xb - xa >= 0.4 else None


def block_mark(d, line, block, mid):
    s, bh = d.svg, d.block_h
    ends = ends_of(d, block)
    if not ends:
        return
    xa, xb = ends
    in_cache = block.live and d.unsure[line]
    fill, edge, ink, sw = ((CACHE_FILL, CACHE_EDGE, INK, 1.2) if in_cache else
                           ("#ffffff", INK, INK, 1.2) if block.live else ("#f4f4f4", PALE, GREY, 0.8))
    letter = d.letter(line, block.content) if in_cache else None
    tip = block_words(d, line, block, in_cache, letter)
    s.rect(xa, mid - bh / 2, xb - xa, bh, fill, edge, sw, 2, tip)
    r = 6.2 if d.names else 4.9
    kept = d.run.kept.get(line, [])
    badged = letter is not None and len(kept) > 1
    tx, room = room_in(d, line, xa, xb, s.width(block.content, d.fs) + 1 + (2 * r + 2.5 if badged else 0))
    if badged and room >= 2 * r + 1:
        s.badge(tx + r - 1.5, mid, letter, len(kept), r, tip)
        tx += 2 * r + 2.5
        room -= 2 * r + 2.5
    for size in (d.fs, d.fs - 1):
        if s.width(block.content, size) <= room - 1:
            s.content(tx, mid + size * 0.36, block.content, size, ink, title=tip)
            break


def room_in(d, line, xa, xb, wanted):
    """Where a block's words begin, and their room: the first stretch without a diamond that is wide enough, else the widest."""
    reach, left, rooms = d.block_h * 0.36, xa + 5, []
    for x in sorted({d.x(e) for e, _ in d.marks[line] + d.flushes[line] if e in d.column and xa <= d.x(e) < xb}):
        if x > xa:
            rooms.append((left, x - reach - 2 - left))
        left = x + reach + 5
    rooms.append((left, xb - 1 - left))
    return next((r for r in rooms if r[1] >= wanted), max(rooms, key=lambda r: r[1]))


def block_words(d, line, block, in_cache, letter):
    since = "the start" if block.a is None or block.a < d.run.first else "event %d" % block.a
    if letter is not None and letter < 16:
        then = "; branch %s" % LETTERS[letter]
    else:
        then = "; still in the cache" if in_cache else "; persisted" if block.live else "; replaced by a later write-back"
    return "%s from %s: %s%s" % (d.run.name(line), since, in_words(block.content), then)


def diamond(d, line, e, mid, fill, what, by):
    if e in d.column:
        s, x, bh = d.svg, d.x(e), d.block_h
        s.line(x, mid - bh / 2 - 1, x, mid + bh / 2 + 1, INK, 1.4)
        s.diamond(x, mid, bh * 0.36 if d.names else 4.2, fill, "%s %s at event %d%s" % (d.run.name(line), what, e, by))


def fan(d, line, mid, kept):
    """At the stop the line branches into its contents, oldest on top."""
    s, x = d.svg, d.x_stop
    xl = x + (40 if len(kept) < 8 else 52)
    if len(kept) == 1 and line in d.touched:
        s.line(x, mid, xl - 8, mid, PALE, 1)
        w = s.content(xl - 4, mid + 3.5, kept[0], d.fs, GREY, title="%s holds this in every ending" % d.run.name(line))
        d.fan_right = max(d.fan_right, xl + w)
    if len(kept) < 2:
        return
    since = {}
    for block in d.blocks[line]:
        if block.live:
            since.setdefault(block.content, block.a)
    total = min(len(kept), 17)
    for i, c in enumerate(kept[:16]):
        branch(d, line, c, i, len(kept), since.get(c), mid, mid + (i - (total - 1) / 2) * d.fan_h, xl)
    if len(kept) > 16:
        s.text(xl - 4, mid + (16 - (total - 1) / 2) * d.fan_h + 3, ".. and %d more" % (len(kept) - 16), 9, GREY, italic=True)


def branch(d, line, c, i, of, since, mid, y, xl):
    s, x = d.svg, d.x_stop
    s.path("M%.1f %.1fC%.1f %.1f %.1f %.1f %.1f %.1f" % (x, mid, x + 22, mid, x + 16, y, xl - 8, y), CACHE_EDGE, 1.3)
    when = "start" if since is None or since < d.run.first else "event %d" % since
    tip = "%s, branch %s, there since %s: %s" % (d.run.name(line), LETTERS[i], when, in_words(c))
    s.badge(xl, y, i, of, 6.5 if d.names else 5.4, tip)
    w = s.content(xl + 12, y + 3.5, c, d.fs, INK, title=tip)
    s.text(xl + 12 + w + 7, y + 3.3, when, 8.3, GREY, title=tip)
    d.fan_right = max(d.fan_right, xl + 12 + w + 7 + tw(when, 8.3))
