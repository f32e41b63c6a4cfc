"""Where things stand: a column an event, a lane a desk and a line, and for each line its blocks."""
from collections import namedtuple

from .columns import Content
from .marks import Svg

NAMED = 60                # up to so many events have their step names written ..
NAMED_WIDTH = 640         # .. in columns of 18 to 30, together about this wide
TICKS_WIDTH = 860         # more events are ticks, together this wide
TICK_MIN = 2.4            # the narrowest column
FOLD = 340                # so many of the last events are drawn, the earlier are folded
LABEL = 58                # room for the lanes' names
TOP = 34

# a line held `content` from event a (None: the start) to event b (None: the stop); live: contents count from there on
Block = namedtuple("Block", "a b content live")
Lane = namedtuple("Lane", "kind which y h")


class Layout:
    def __init__(self, run):
        self.run, self.svg = run, Svg()
        self.fan_right = 0
        events = run.events
        self.folded = max(0, len(events) - FOLD) if len(events) > FOLD + 60 else 0
        self.shown = events[self.folded:]
        self.column = {ev.e: i for i, ev in enumerate(self.shown)}
        n = max(1, len(self.shown))
        self.names = n <= NAMED
        self.cw = min(30.0, max(18.0, NAMED_WIDTH / n)) if self.names else max(TICK_MIN, TICKS_WIDTH / n)
        self.fs = 10.8 if self.names else 9.2
        self.place_blocks()
        self.place_columns()
        self.place_lanes()

    # ---- across

    def place_columns(self):
        run = self.run
        self.x_before = LABEL
        self.x_start = LABEL + (40 if run.crashed else 0)
        widest = max([self.svg.width(c, self.fs) for cs in run.at_start.values() for _, c in cs] or [30])
        self.x_fold = self.x_start + max(44, widest + 30)
        self.x0 = self.x_fold + (34 if self.folded else 0)
        after = self.x0 + len(self.shown) * self.cw
        tail = 44 if self.names else 34                   # the last contents are to be read
        for line in self.touched:
            last = self.blocks[line][-1]
            if last.a is not None:
                behind = max([last.a] + [e for e, _ in self.marks[line] + self.flushes[line]])
                tail = max(tail, min(96, self.svg.width(last.content, self.fs) + 26 - (after - self.x(behind))))
        self.x_stop = after + tail

    def x(self, e):
        """The middle of an event's column."""
        if e < self.run.first:
            return self.x_fold
        if e not in self.column:
            return self.x0                                # folded
        return self.x0 + (self.column[e] + 0.5) * self.cw

    # ---- the blocks of each line

    def place_blocks(self):
        run = self.run
        self.blocks, self.marks, self.flushes, self.touched = {}, {}, {}, set()
        for line in run.lines:
            self.blocks[line] = self.blocks_of(line)
        self.unsure = {line: len(set(self.live(line))) > 1 for line in run.lines}

    def blocks_of(self, line):
        run = self.run
        at = run.at_start.get(line, [(0, Content("0" if run.name(line).startswith("node") else "-", "0", "-", ""))])
        stored = [(None, at[0][1])] + [(run.first - 1, c) for _, c in at[1:]]
        self.marks[line] = [(ev.e, ev.persist) for ev in run.events if ev.persist and ev.persist.line == line]
        self.flushes[line] = [(ev.e, ev.flush[1]) for ev in run.events if ev.flush and ev.flush[0] == line]
        stored += [(ev.e, c) for ev in run.events for l, _, c in ev.contents if l == line]
        if len(stored) > 1 or self.marks[line] or self.flushes[line]:
            self.touched.add(line)
        cuts = sorted({p.since for _, p in self.marks[line]})
        floor = max(cuts) if cuts else None
        out = []
        for i, (a, c) in enumerate(stored):
            b = stored[i + 1][0] if i + 1 < len(stored) else None
            inside = [x for x in cuts if (a is None or x > a) and (b is None or x < b)]
            edges = [a] + inside + [b]
            for p, q in zip(edges, edges[1:]):
                out.append(Block(p, q, c, floor is None or (p is not None and p >= floor)))
        return out

    def live(self, line):
        """The contents that can still come back, oldest first, each once."""
        return list(dict.fromkeys(b.content for b in self.blocks[line] if b.live))

    def letter(self, line, content):
        kept = self.run.kept.get(line, [])
        return kept.index(content) if content in kept else None

    # ---- down

    def lanes_wanted(self):
        """Desks, then lines; on a crowded table neighbouring untouched nodes are one lane."""
        run = self.run
        wanted, group = [("desk", k) for k in range(run.sizes[0])], []
        for line in run.lines + [None]:
            node = line is not None and run.name(line).startswith("node")
            if node and len(run.lines) > 10 and line not in self.touched:
                group.append(line)
                continue
            if len(group) > 1:
                wanted.append(("untouched", group))
            else:
                wanted += [("line", g) for g in group]
            group = []
            if line is not None:
                wanted.append(("line", line))
        return wanted

    def lane_height(self, kind, which):
        if kind == "desk":
            return self.desk_h
        if kind == "untouched":
            return 17
        base = 30 if self.names else 21
        k = len(self.run.kept.get(which, []))
        if k > 1:
            return max(base, min(k, 17) * self.fan_h + 8)
        return base if which in self.touched else min(base, 22)

    def place_lanes(self):
        self.desk_h = 40 if self.names else 30
        self.block_h = 20 if self.names else 14
        self.fan_h = 17 if self.names else 13.5
        self.lanes, self.desk_y, self.line_y = [], {}, {}
        y = TOP + 16
        for kind, which in self.lanes_wanted():
            h = self.lane_height(kind, which)
            if kind == "desk":
                self.desk_y[which] = y
            else:
                if self.lanes and self.lanes[-1].kind == "desk":
                    y += 10
                for line in which if kind == "untouched" else [which]:
                    self.line_y[line] = y + h / 2
            self.lanes.append(Lane(kind, which, y, h))
            y += h
        self.y_end = y + 4
