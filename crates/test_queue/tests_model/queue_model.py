#!/usr/bin/env python3
"""A plain model of the part queue, and the lists of events that the test compares with it.

The model keeps lists and sets and nothing else: for each writer whether it is registered and has completed
and how many items it put, and one list of the waiting items. The script writes src/lists.rt: 200 lists of
random events, each with the replies that the model gives, in eight parts, with a `/` between two lists.

A list is one text. It begins with the shape, `W C R:` in single digits. A call is a letter and a digit, and its
reply follows it:

    r0+   register writer 0: Ok       r0n NoSuchWriter   r0a AlreadyRegistered
    p0+3  put an item by writer 0: Ok, number 3
          p0n7 NoSuchWriter  p0u7 NotRegistered  p0c7 Completed  p0f7 Full, each with the item 7
    t0g1.3.7  take by reader 0: Got item 7, number 3 of writer 1
          t0e Empty   t0d1.0. Finished with the totals 1 and 0   t0n NoSuchReader
    c0+   complete writer 0: Ok       c0n NoSuchWriter  c0u NotRegistered  c0c Completed

Every call ends with a blank. The items are the numbers of the puts from 0, refused ones too.
A put can't be refused for want of numbers in a list as short as these.
"""

import random
import sys


class Queue:
    def __init__(self, writers, per_writer, readers):
        self.writers, self.per_writer, self.readers = writers, per_writer, readers
        self.registered, self.completed = set(), set()
        self.put_count = [0] * writers
        self.taken_count = [0] * writers
        self.waiting = []

    def register(self, w):
        if w >= self.writers:
            return "n"
        if w in self.registered:
            return "a"
        self.registered.add(w)
        return "+"

    def put(self, w, item):
        if w >= self.writers:
            return "n%d" % item
        if w not in self.registered:
            return "u%d" % item
        if w in self.completed:
            return "c%d" % item
        if sum(1 for v, _ in self.waiting if v == w) == self.per_writer:
            return "f%d" % item
        self.waiting.append((w, item))
        self.put_count[w] += 1
        return "+%d" % (self.put_count[w] - 1)

    def take(self, r):
        if r >= self.readers:
            return "n"
        if self.waiting:
            w, item = self.waiting.pop(0)
            self.taken_count[w] += 1
            return "g%d.%d.%d" % (w, self.taken_count[w] - 1, item)
        if len(self.completed) == self.writers:
            return "d" + "".join("%d." % n for n in self.put_count)
        return "e"

    def complete(self, w):
        if w >= self.writers:
            return "n"
        if w not in self.registered:
            return "u"
        if w in self.completed:
            return "c"
        self.completed.add(w)
        return "+"


def one_list(rng):
    writers, per_writer, readers = rng.randint(1, 4), rng.randint(1, 3), rng.randint(1, 2)
    queue, text, items = Queue(writers, per_writer, readers), [], 0
    # a list whose takes and completes are common enough comes to its end
    ends = rng.choice([2, 6, 12])
    for _ in range(rng.randint(6, 24)):
        kind = rng.choices("rptc", [6, 14, 10, ends])[0]
        if kind == "t":
            r = rng.choices([rng.randrange(readers), readers], [15, 1])[0]
            text.append("t%d%s" % (r, queue.take(r)))
            continue
        w = rng.choices([rng.randrange(writers), writers], [15, 1])[0]
        if kind == "r":
            text.append("r%d%s" % (w, queue.register(w)))
        elif kind == "p":
            text.append("p%d%s" % (w, queue.put(w, items)))
            items += 1
        else:
            text.append("c%d%s" % (w, queue.complete(w)))
    return "%d%d%d:%s " % (writers, per_writer, readers, " ".join(text))


def main():
    rng = random.Random(20150215)
    lists = [one_list(rng) for _ in range(200)]
    words = " ".join(t.split(":")[1] for t in lists).split()
    seen = {t[0] + t[2] for t in words}
    wanted = {"r+", "rn", "ra", "p+", "pn", "pu", "pc", "pf", "tg", "te", "td", "tn", "c+", "cn", "cu", "cc"}
    assert seen == wanted, wanted ^ seen
    out = ["//! Written by tests_model/queue_model.py: lists of events, with the replies of a plain model."]
    for part in range(8):
        out += ["", "pub fn part_%d() -> &'static str {" % part]
        out += ['    "%s"' % "/".join(lists[25 * part : 25 * part + 25]), "}"]
    sys.stdout.write("\n".join(out) + "\n")


if __name__ == "__main__":
    main()
