"""What steps, contents and refusals are in words."""

STEPS = {
    "A1": "takes the first free node after the one last handed out", "A2": "item stored", "A3": "next set to none",
    "A4": "linked set to 0", "A5": "Tail read as t", "A6": "next of t read",
    "A7": "index set to t's index + 1", "A8": "becomes t's next, if that is none",
    "A9": "linked set to 1", "A10": "the node's line is flushed",
    "F10": "waits: the node's line as it was at the flush is persisted, or something later",
    "A11": "Tail becomes the new node if it is still t", "A12": "Tail becomes t's next if it is still t",
    "D1": "Head read", "D2": "next of that node read", "D3": "line 0 is flushed",
    "F3": "waits: line 0 as it was at the flush is persisted, or something later; Empty",
    "D4": "Head moves on, if it is still the pair read", "D5": "item of the next node read",
    "D6": "line 0 is flushed", "F6": "waits: line 0 as it was at the flush is persisted, or something later",
    "D7": "the node held before is retired, the old dummy is held",
    "S3": "the index of the node found last stored in its head line", "S6": "the new dummy's index stored in its head line",
}
# where each desk has a head line of its own
OWN_HEADS = {
    "D3": "its head line is flushed", "D4": "Head moves on, if it is still the node read", "D6": "its head line is flushed",
    "F3": "waits: its head line as it was at the flush is persisted, or something later; Empty",
    "F6": "waits: its head line as it was at the flush is persisted, or something later",
}
KINDS = {"1": "begin an enqueue", "2": "begin a dequeue", "3": "a step", "4": "a write-back", "5": "a crash",
         "6": "begin an enqueue on queue 1", "7": "begin a dequeue on queue 1"}


def step(run, name):
    """What a step does; "" of one that is not known."""
    return (OWN_HEADS.get(name) if run.own_heads else None) or STEPS.get(name, "")


def thousands(n):
    return "{:,}".format(n)


def plural(n, one, many=None):
    return "%s %s" % (thousands(n), one if n == 1 else (many or one + "s"))


def in_words(c):
    if c.linked == "-":
        return "head index %s" % c.index
    return "%s, index %s, item %s%s" % ("linked" if c.linked == "1" else "not linked", c.index, c.item,
                                        ", queue %s" % c.queue if c.queue else "")


def refusal(run):
    number, place, kind, what, item = run.refused
    ev = "event %d" % place
    asked = KINDS.get(kind, "")
    which = "line" if kind == "4" else "thread"
    return {
        1: "The length is wrong: the bytes end too early, or go on after the last event.",
        2: "The mark or the version is wrong: these bytes are no schedule with an image that is read here.",
        3: "The number of nodes is not 2 to 64.",
        4: "The number of threads is not 1 to 8, or the image holds another.",
        5: "There are more than 4,096 events.",
        6: "The linked byte of node %d is above 1." % place,
        7: "Node %d has a lower-numbered twin: two recovered nodes with one index." % place,
        8: "Every node is recovered, so that none is left to be the dummy.",
        9: "The kind of %s is %s, which is none that is known." % (ev, kind),
        10: "The %s of %s is too large: %s of %s %s." % (which, ev, asked, which.replace("thread", "desk"), what),
        11: "At %s desk %s was to %s, but it still has an operation." % (ev, what, asked),
        12: "At %s desk %s was to take a step, but it has no operation." % (ev, what),
        13: "A field of %s (%s) that should be zero is not." % (ev, asked),
        14: "Line %d (%s) has %s contents; at most 16 are taken." % (
            place, run.name(place), len(run.kept.get(place, [])) or "more than 16"),
        15: "There are more than 65,536 endings.",
        16: "There is no ending of that number.",
        17: "The lent buffer is too short.",
        18: "The machine record is outside its ranges.",
        19: "At %s line %s was to be written back, but it is clean." % (ev, what),
    }.get(number, "")


def queue_words(queues):
    """The queues of an ending in words, apart by a bar."""
    return " | ".join(" ".join(q.items) or "empty" for q in queues)
