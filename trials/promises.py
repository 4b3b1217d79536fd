"""The promises of a new sender, each tried on the steps of a run. Their names are the fields of the record `Promises`."""
from collections import namedtuple

from history import NOTHING, credited_once, grounds, leads, sum_before
from sender import MODULUS, finish

Start = namedtuple("Start", "control words")

class Step(namedtuple("Step", "start before past call answer after history")):
    """One call of a run, with what was before it and after it. The methods named in PROMISES are True where the step keeps them."""

    def is_refused(self): return self.answer[0] == "refused"
    def is_counted(self): return self.answer[0] in ("counted", "lost")
    def end_if_accepted(self): return self.call[1] if self.call[0] == "acknowledge" and not self.is_refused() else -1
    def reaches(self, start): return self.call[0] == "acknowledge" and start < self.call[1] <= self.past.bytes()

    def no_other_refusal(self):
        refusals = [("refused", *refusal) for test, *refusal in grounds(self.start, self.past, *self.call) if test]
        return self.answer == refusals[0] if refusals else not self.is_refused()

    def refusal_changes_nothing(self): return not self.is_refused() or self.after == self.before
    def proved_is_farthest(self): return self.after.proved == self.history.farthest
    def sent_is_bytes(self): return self.after.sent == self.history.bytes()

    def end_to_end(self):
        gs = self.history.segments
        return all(g.length > 0 and g.start == end for g, end in zip(gs, [0, *map(finish, gs)]))

    def two_words_each(self):
        drawn = 2 * len(self.past.segments)
        return self.answer[0] != "sent" or self.answer[1] == (self.past.bytes(), self.call[1], *self.start.words[drawn:drawn + 2])

    def single_credit(self): return self.after.control == credited_once(self.start.control, self.history)
    def advances_past(self): return self.end_if_accepted() <= self.past.farthest or self.answer == ("advanced",)

    def oldest_first(self):
        if self.end_if_accepted() != self.past.farthest:
            return True
        oldest = next((g.start for g in self.past.uncounted(self.call[3])), 0)
        return self.is_counted() and self.answer[1] == oldest

    def third_tells_loss(self):
        return self.end_if_accepted() != self.past.farthest or (self.answer[0] == "lost") == (self.past.duplicates_since == 2)

    def counted_once(self):
        if not self.is_counted():
            return True
        start, past = self.answer[1], self.past
        by_its_echo = self.call[0] == "acknowledge" and any(g.start == start and g.single == self.call[3] for g in past.segments)
        return past.farthest < start and start not in past.starts_counted and by_its_echo

    def bounded(self):
        window, M = self.after.control.window, self.start.control.segment
        return window + self.after.control.segment * self.after.duplicates <= window + M * self.history.beyond()

    def orders_the_oldest(self): return self.answer[0] != "ordered" or leads(self.answer[1], self.past.outstanding())

    def repeats_as_sent(self):
        return self.answer[0] != "repeated" or self.answer[1] in self.past.outstanding() and self.answer[1].start == self.call[1]

def run(kind, start, count, choose):
    """The steps of so many calls on a new sender of this kind, each chosen by its place, the history before it and the sender."""
    sender, history, steps = kind(*start), NOTHING, []
    for i in range(count):
        call, before, past = choose(i, history, sender), sender.state(), history
        answer = sender.reply(call)
        history = past.noted(call, answer)
        steps.append(Step(start, before, past, call, answer, sender.state(), history))
    return steps

def one_value(kind, steps):
    """For each segment and the first acknowledgement that reaches past its start: one summed nonce passes, and no other."""
    for i, s in enumerate(steps):
        reaching = [j for j in range(i, len(steps)) if s.answer[0] == "sent" and steps[j].reaches(s.answer[1].start)]
        if reaching and not one_passes(kind, s, steps[:reaching[0] + 1]):
            return False
    return True

def one_passes(kind, s, steps):
    (control, words), drawn, (_, end, total, _) = s.start, 2 * len(s.past.segments), steps[-1].call
    def passes(value):
        sender = kind(control, words[:drawn] + (value % MODULUS,) + words[drawn + 1:])
        return [sender.reply(t.call) for t in steps][-1][0] != "refused"
    solution = (total - sum_before(end, [g for g in steps[-1].past.segments if g.start != s.answer[1].start])) % MODULUS
    others = {0, total, solution + 1, solution - 1, solution ^ 0x9E3779B97F4A7C15} - {solution}
    return passes(solution) and not any(map(passes, others))

def pool_up(pool, steps):
    """For never_wider: the controller at first, the signals, E and the window, each time with a list that led there."""
    for i, s in enumerate(steps):
        place = (s.start.control, s.history.signals, s.history.farthest, -s.after.control.window)
        if place not in pool:
            pool[place] = (s.start, [t.call for t in steps[:i + 1]])

def never_wider(pool):
    """The pairs of lists with the same signals of which the one with the lower E has the wider window."""
    ordered = sorted(pool)
    return [(pool[low], pool[high]) for low, high in zip(ordered, ordered[1:]) if low[:2] == high[:2] and low[3] < high[3]]

PROMISES = """no_other_refusal refusal_changes_nothing proved_is_farthest sent_is_bytes end_to_end two_words_each single_credit
    advances_past oldest_first third_tells_loss counted_once bounded orders_the_oldest repeats_as_sent one_value""".split()

def is_broken(name, kind, steps):
    return not one_value(kind, steps) if name == "one_value" else not all(map(getattr(Step, name), steps))
