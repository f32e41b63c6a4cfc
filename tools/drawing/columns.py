"""The rows of `explain columns`, version 1, read: the facts since the last start."""
import itertools
from collections import namedtuple

LETTERS = "abcdefghijklmnop"

# what a line holds: "-" for what a head line does not have, queue "" where there is one queue
Content = namedtuple("Content", "linked index item queue")
# one queue of an ending: its head index, items and their indices
Queue = namedtuple("Queue", "head items indices")
Ending = namedtuple("Ending", "number letters queues")
# a persist: of which line, by what step (or write-back), from which event on contents count
Persist = namedtuple("Persist", "line by since")


def words_of(field):
    return [] if field == "-" else field.split(" ")


class Event:
    def __init__(self, number):
        self.e, self.desk = number, None
        self.contents, self.persist, self.flush = [], None, None
        self.begin = self.step = self.answer = None


class Run:
    def __init__(self, text):
        self.sizes = self.refused = self.count = None
        self.names = {}
        self.kept, self.endings, self.next = {}, [], {}
        self.row_start("-", "0", "-")
        for line in text.splitlines():
            fields = line.split("\t")
            take = getattr(self, "row_" + fields[0], None)   # rows and fields of later programs are passed over
            if take:
                take(*fields[1:take.__code__.co_argcount])

    def event(self, e):
        if not self.events or self.events[-1].e != int(e):
            self.events.append(Event(int(e)))
        return self.events[-1]

    # ---- a method for each row

    def row_columns(self, version):
        if version != "1":
            raise SystemExit("draw: columns of version %s are not known here" % version)

    def row_sizes(self, t, n, count):
        self.sizes = (int(t), int(n), int(count))

    def row_line(self, line, name):
        self.names[int(line)] = name

    def row_start(self, e, dummy, queue, dummy_1="", queue_1=""):
        self.first = 0 if e == "-" else int(e) + 1      # the first event that is drawn
        self.crashed = e != "-"
        self.dummies = [dummy] + ([dummy_1] if dummy_1 else [])
        self.queues = [queue] + ([queue_1] if queue_1 else [])
        self.at_start = {}                              # line -> places and contents at the start
        self.events = []

    def row_content(self, e, line, place, linked, index, item, queue=""):
        c = (int(place), Content(linked, index, item, queue))
        if not self.events and (e == "-" or int(e) == self.first - 1):
            self.at_start.setdefault(int(line), []).append(c)
        else:
            self.event(e).contents.append((int(line),) + c)

    def row_begin(self, e, desk, kind, item, queue=""):
        ev = self.event(e)
        ev.desk, ev.begin = int(desk), (kind, item, queue)

    def row_step(self, e, desk, step):
        ev = self.event(e)
        ev.desk, ev.step = int(desk), step

    def row_answer(self, e, desk, answer, item):
        self.event(e).answer = item if answer == "item" else answer

    def row_flush(self, e, line, by):
        self.event(e).flush = (int(line), by)

    def row_persist(self, e, line, by, since=""):
        self.event(e).persist = Persist(int(line), by, int(since) if since else int(e))

    def row_next(self, desk, step):
        self.next[int(desk)] = step

    def row_kept(self, line, place, linked, index, item, queue=""):
        self.kept.setdefault(int(line), []).append(Content(linked, index, item, queue))

    def row_endings(self, count):
        self.count = int(count)

    def row_ending(self, k, letters, head, items, indices, head_1="", items_1="-", indices_1="-"):
        queues = [Queue(head, words_of(items), words_of(indices))]
        if head_1:
            queues.append(Queue(head_1, words_of(items_1), words_of(indices_1)))
        self.endings.append(Ending(int(k), "" if letters == "-" else letters, queues))

    def row_refused(self, number, place, kind, what, item):
        self.refused = (int(number), int(place), kind, what, item)

    # ---- what is asked of them

    def name(self, line):
        return self.names.get(line, "line %d" % line)

    def label(self, line):
        """Its name where there is little room."""
        return self.name(line).replace("head of desk", "head")

    @property
    def own_heads(self):
        """Whether each desk has a head line of its own."""
        return any(name.startswith("head of desk") for name in self.names.values())

    @property
    def lines(self):
        return sorted(self.names)

    @property
    def branched(self):
        return [line for line in sorted(self.kept) if len(self.kept[line]) > 1]

    @property
    def stopped_early(self):
        return self.refused is not None and 9 <= self.refused[0] <= 13

    def followed(self):
        """Every choice of contents stands there once, in its order."""
        every = itertools.product(*(LETTERS[:len(self.kept[line])] for line in self.branched))
        return (self.count == len(self.endings) and
                [(e.number, e.letters) for e in self.endings] == [(k, "".join(c)) for k, c in enumerate(every)])

    def disagreements(self, blocks):
        """Where the rows contradict each other; `blocks` has for each line the contents of its drawn blocks that can still come back."""
        told = []
        if self.count is not None and not self.followed():
            told.append("the endings are not each choice once, in order")
        if self.refused is None and self.sizes and self.events and self.events[-1].e != self.sizes[2] - 1:
            told.append("the last event is not that of the sizes")
        for line, kept in sorted(self.kept.items()):
            if kept != blocks.get(line, []):
                told.append("%s: the contents at the stop are not those of its blocks" % self.name(line))
        return told
