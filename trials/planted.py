"""Wrong senders: each is the sender with one likely mistake, and the promises that should show it, the best first."""
from sender import Claim, PLACES, Sender, finish

PLANTED = []

def plant(title, telling, **methods):
    """A sender with these methods in place of its own; telling names the promises that should show it, the best first."""
    PLANTED.append((title, telling.split(), type("Planted", (Sender,), methods)))

def begun(s, g, end): return g.start < end
def consume(s, kind): s.words = s.words[2:] if kind == "send" else s.words
def unmarked(s): return tuple(Claim(c.segment, False) for c in s.claims)
def whole_lengths(s, end): return sum(c.segment.length for c in s.claims if c.segment.start < end)
def from_oldest(s, end): return end - s.claims[0].segment.start

plant("never credits", "single_credit", credit_for=lambda s, end: 0)
plant("credits the segment's length, not the rise", "single_credit", credit_for=whole_lengths)
plant("credits from the oldest claim's start, not from E", "single_credit", credit_for=from_oldest)
plant("leaves the half-acknowledged segment out of the sum", "no_other_refusal", is_in_sum=lambda s, g, end: finish(g) <= end)
plant("adds the half-acknowledged segment twice", "no_other_refusal", settles=begun)
plant("accepts every sum", "one_value", sum_passes=lambda s, end, total: True)
plant("refuses every sum", "no_other_refusal", sum_passes=lambda s, end, total: False)
plant("clears spent marks at a timeout", "counted_once", claims_after_timeout=unmarked)
plant("counts an echo of the segment E stands in", "counted_once", is_echoed=lambda s, g, echo: g.single == echo)
plant("marks the newest, not the oldest", "oldest_first", pick=lambda s, starts: starts[-1])
plant("does not reset duplicates at an advance", "bounded no_other_refusal", duplicates_after_advance=lambda s: s.duplicates)
plant("tells the loss at the second duplicate", "third_tells_loss", is_loss=lambda s: s.duplicates == 2)
plant("tells the loss at the fourth duplicate", "third_tells_loss", is_loss=lambda s: s.duplicates == 4)
plant("tells the window, not the bytes in flight, at a loss", "single_credit", told_at_loss=lambda s: s.control.window)
plant("tells the window, not the bytes in flight, at a timeout", "single_credit", told_at_timeout=lambda s: s.control.window)
plant("gives 4 at 63 claims", "no_other_refusal", table_is_full=lambda s: len(s.claims) >= PLACES - 1)
plant("frees every claim begun before the end", "no_other_refusal repeats_as_sent", frees=begun, settles=begun)
plant("keeps a repeat due over an advance", "no_other_refusal orders_the_oldest", due_after_advance=lambda s: s.due)
plant("put back always makes a repeat due", "no_other_refusal", is_due_again=lambda s, start: True)
plant("put back never makes a repeat due", "no_other_refusal", is_due_again=lambda s, start: False)
plant("draws one word for both nonces", "two_words_each", draw=lambda s: (s.words[0], s.words[0], s.words[1:]))
plant("swaps the two nonces", "two_words_each one_value", draw=lambda s: (s.words[1], s.words[0], s.words[2:]))
plant("a refused send consumes words", "refusal_changes_nothing", after_refusal=consume)
plant("a take leaves the repeat due", "no_other_refusal", due_after_take=lambda s: True)
plant("a repeat answers the first claim whatever the order", "repeats_as_sent", segment_for=lambda s, start: s.claims[0].segment)
plant("a take orders the newest claim", "orders_the_oldest", pick_order=lambda s, starts: starts[-1])
plant("a segment starts a byte late", "end_to_end", next_start=lambda s: s.sent + 1)
plant("counts a byte too many as sent", "sent_is_bytes", sent_after=lambda s, length: s.sent + length + 1)
