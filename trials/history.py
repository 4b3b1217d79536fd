"""What calls and their answers tell of a sender, worked out from them alone, and the grounds of each refusal in these words."""
from collections import namedtuple
from functools import lru_cache

from sender import MODULUS, finish

Signal = namedtuple("Signal", "kind proved sent")

class History(namedtuple("History", "segments farthest signals starts_counted duplicates_since repeat_due")):
    """What calls and their answers tell, noted call by call; no sender is asked. E is farthest; signals have the newest first."""

    def noted(self, call, answer):
        kind, is_counted, is_signal = answer[0], answer[0] in ("counted", "lost"), answer[0] in ("lost", "expired")
        return History(
            self.segments + answer[1:] if kind == "sent" else self.segments,
            max(call[1], self.farthest) if self.is_true(*call) else self.farthest,
            (Signal(kind, self.farthest, self.bytes()),) + self.signals if is_signal else self.signals,
            self.starts_counted + answer[1:] if is_counted else self.starts_counted,
            0 if kind in ("advanced", "expired") else self.duplicates_since + is_counted,
            is_signal or kind == "returned" and leads(answer[1], self.outstanding())
            or kind not in ("advanced", "ordered") and self.repeat_due)

    def is_true(self, kind, end=0, total=0, echo=0):
        return kind == "acknowledge" and end <= self.bytes() and total == sum_before(end, self.segments)

    def bytes(self): return sum(g.length for g in self.segments)
    def outstanding(self): return [g for g in self.segments if finish(g) > self.farthest]
    def beyond(self): return sum(g.start > self.farthest for g in self.segments)
    def echoed(self, echo): return [g for g in self.segments if g.start > self.farthest and g.single == echo]
    def uncounted(self, echo): return [g for g in self.echoed(echo) if g.start not in self.starts_counted]

NOTHING = History((), 0, (), (), 0, False)

def leads(start, gs): return len(gs) > 0 and gs[0].start == start
def sum_before(end, gs): return sum(g.summed for g in gs if g.start < end) % MODULUS
def proved_then(signals): return signals[0].proved if signals else 0

@lru_cache(100_000)
def after_signals(control, signals):
    """Where a controller stands right after the last of the signals, with a single credit of E's rise before each."""
    if not signals:
        return control
    (kind, proved, sent), earlier = signals[0], signals[1:]
    credited = after_signals(control, earlier).credit(proved - proved_then(earlier))
    return credited.loss(sent - proved) if kind == "lost" else credited.timeout(sent - proved)

def credited_once(control, h):
    return after_signals(control, h.signals).credit(h.farthest - proved_then(h.signals))

def room(control, h):
    """The bytes that may still be sent: what may be in flight less what is."""
    return credited_once(control, h).window + control.segment * h.duplicates_since - (h.bytes() - h.farthest)

def grounds(start, h, kind, *values):
    """Each ground on which a call is refused, in order: the test, the number, the places."""
    sent, proved = h.bytes(), h.farthest
    if kind == "send":
        length, M = values[0], start.control.segment
        return ((length == 0 or length > M, 2, sent), (sent + length > 2**40, 3, sent), (len(h.outstanding()) >= 64, 4, sent),
                (length > room(start.control, h), 5, sent), (len(start.words) < 2 * len(h.segments) + 2, 6, sent))
    if kind == "acknowledge":
        end, total, echo = values
        return ((end > sent, 7, end), (end < proved, 8, end), (total != sum_before(end, h.segments), 9, proved, end),
                (end == proved and not h.echoed(echo), 10, end), (end == proved and not h.uncounted(echo), 11, end))
    if kind == "timeout": return ((sent <= proved, 12, sent),)
    if kind == "take": return ((not h.repeat_due, 13, sent),)
    if kind == "repeat": return ((all(g.start != values[0] for g in h.outstanding()), 14, values[0]),)
    return ()
