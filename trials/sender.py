"""The rules of the sender, as a model in Python that shares nothing with the proved code.

A call is (send, length), (acknowledge, end, sum, echo), (timeout,), (take,), (repeat, start) or (put_back, start).
An answer is a tuple that starts with its name; a refusal is (refused, number, place, ..).
"""
from collections import namedtuple

MODULUS, WIDEST, PLACES = 2**64, 2**24, 64
Segment = namedtuple("Segment", "start length summed single")
Claim = namedtuple("Claim", "segment spent")
State = namedtuple("State", "control words claims settled sent proved duplicates due")

def finish(g): return g.start + g.length

class Reno(namedtuple("Reno", "segment window threshold carry", defaults=(WIDEST, 0))):
    def credit(self, count):
        # up to the threshold a byte wider for each byte, then a segment wider each time that the carry reaches the window
        climb = min(count, max(self.threshold - self.window, 0))
        window, carry, left = self.window + climb, self.carry, count - climb
        while left >= window - carry:
            left, carry, window = left - (window - carry), 0, min(window + self.segment, WIDEST)
        return Reno(self.segment, window, self.threshold, carry + left)

    def halved(self, flight): return min(max(flight // 2, 2 * self.segment), WIDEST)
    def loss(self, flight): return Reno(self.segment, min(self.window, self.halved(flight)), self.halved(flight))
    def timeout(self, flight): return Reno(self.segment, self.segment, self.halved(flight))

class Sender:
    """The sender by its rules. A planted bug overrides one or two of the small methods at the end."""

    def __init__(self, control, words):
        self.control, self.words, self.claims, self.due = control, words, (), False
        self.settled = self.sent = self.proved = self.duplicates = 0

    def state(self):
        return State(self.control, self.words, self.claims, self.settled, self.sent, self.proved, self.duplicates, self.due)

    def reply(self, call):
        for test, *refusal in self.checks(*call):
            if test:
                self.after_refusal(call[0])
                return ("refused", *refusal)
        return getattr(self, call[0])(*call[1:])

    def checks(self, kind, *values):
        # what a call is refused for, in order: the test, the number, the places
        if kind == "send":
            length, M, sent, flight = values[0], self.control.segment, self.sent, self.in_flight()
            return ((not 0 < length <= M, 2, sent), (sent + length > 2**40, 3, sent), (self.table_is_full(), 4, sent),
                    (flight + length > self.control.window + M * self.duplicates, 5, sent), (len(self.words) < 2, 6, sent))
        if kind == "acknowledge":
            end, total, echo = values
            again, matching = end == self.proved, [c for c in self.claims if self.is_echoed(c.segment, echo)]
            return ((end > self.sent, 7, end), (end < self.proved, 8, end), (not self.sum_passes(end, total), 9, self.proved, end),
                    (again and not matching, 10, end), (again and all(c.spent for c in matching), 11, end))
        if kind == "timeout": return ((self.in_flight() == 0, 12, self.sent),)
        if kind == "take": return ((not self.due, 13, self.sent),)
        if kind == "repeat": return ((all(c.segment.start != values[0] for c in self.claims), 14, values[0]),)
        return ()

    # what each call does once it passed its checks
    def send(self, length):
        summed, single, self.words = self.draw()
        segment = Segment(self.next_start(), length, summed, single)
        self.claims, self.sent = self.claims + (Claim(segment, False),), self.sent_after(length)
        return ("sent", segment)

    def acknowledge(self, end, total, echo): return self.advance(end) if end > self.proved else self.duplicate(echo)

    def advance(self, end):
        self.control = self.control.credit(self.credit_for(end))
        self.settled = (self.settled + self.sum_of(self.settles, end)) % MODULUS
        self.claims = tuple(c for c in self.claims if not self.frees(c.segment, end))
        self.proved, self.duplicates, self.due = end, self.duplicates_after_advance(), self.due_after_advance()
        return ("advanced",)

    def duplicate(self, echo):
        start = self.pick([c.segment.start for c in self.claims if self.is_echoed(c.segment, echo) and not c.spent])
        self.claims = tuple(Claim(c.segment, c.spent or c.segment.start == start) for c in self.claims)
        self.duplicates += 1
        if not self.is_loss():
            return ("counted", start)
        self.control, self.due = self.control.loss(self.told_at_loss()), True
        return ("lost", start)

    def timeout(self):
        self.control, self.claims = self.control.timeout(self.told_at_timeout()), self.claims_after_timeout()
        self.duplicates, self.due = 0, True
        return ("expired",)

    def take(self):
        self.due = self.due_after_take()
        return ("ordered", self.pick_order([c.segment.start for c in self.claims] or [0]))

    def repeat(self, start): return ("repeated", self.segment_for(start))

    def put_back(self, start):
        self.due = self.due or self.is_due_again(start)
        return ("returned", start)

    def sum_of(self, is_in, end): return sum(c.segment.summed for c in self.claims if is_in(c.segment, end))

    # the small methods
    def in_flight(self): return self.sent - self.proved
    def after_refusal(self, kind): pass
    def table_is_full(self): return len(self.claims) >= PLACES
    def next_start(self): return self.sent
    def sent_after(self, length): return self.sent + length
    def draw(self): return self.words[0], self.words[1], self.words[2:]
    def is_in_sum(self, g, end): return g.start < end
    def true_sum(self, end): return (self.settled + self.sum_of(self.is_in_sum, end)) % MODULUS
    def sum_passes(self, end, total): return total == self.true_sum(end)
    def is_echoed(self, g, echo): return g.start > self.proved and g.single == echo
    def credit_for(self, end): return end - self.proved
    def settles(self, g, end): return finish(g) <= end
    def frees(self, g, end): return finish(g) <= end
    def duplicates_after_advance(self): return 0
    def due_after_advance(self): return False
    def pick(self, starts): return starts[0]
    def is_loss(self): return self.duplicates == 3
    def told_at_loss(self): return self.in_flight()
    def told_at_timeout(self): return self.in_flight()
    def claims_after_timeout(self): return self.claims
    def due_after_take(self): return False
    def pick_order(self, starts): return starts[0]
    def segment_for(self, start): return next(c.segment for c in self.claims if c.segment.start == start)
    def is_due_again(self, start): return self.claims != () and self.claims[0].segment.start == start
