#!/usr/bin/env python3
"""Respells this repository's own definitions and lemmas: words in snake case, and a dash only between two names.

Run once, at the top, after the kit's port.py. It goes over specs/, proofs/ and what src/ says to the prover, and over
the names that docs/ and the README quote. Functions of src/, strings, inputs and outputs keep their names.
"""
import glob
import re

# definitions, fields of records, constructors, lemmas and what they bind: a dash becomes an underscore
WORDS = """
accepted-is acknowledged-so advanced-so advanced-table advances-past after-advance after-duplicate after-send after-signals
after-take after-timeout alike-after alike-before alike-more all-other all-promises all-spent allowance-bounded
allowance-by-rule any-claim any-gives any-kept any-more any-segment any-wider at-opening begun-before beyond-proved
bounded-once by-its-echo by-start byte-bounded byte-segment byte-widens bytes-push claim-at claim-for claim-row claims-lie
control-is count-more count-wider counted-either counted-for counted-once counted-so counted-table credit-keeps
credited-bounded credited-more credited-once drawn-from duplicate-answer duplicate-counted duplicate-so duplicates-bounded
duplicates-since echoed-past end-to-end-push ends-past every-claim fill-bounded fill-segment fill-widens first-held
first-leads first-refusal first-time first-window found-counted found-new found-outstanding found-segment fresh-bounded
fresh-end fresh-next generated-more halved-limited idle-proved if-acknowledge iiad-same in-flight is-here is-other is-spent
keeps-backed keeps-due keeps-duplicates keeps-end-to-end keeps-proved keeps-steered keeps-table keeps-waiting kept-kept
kept-some known-end laid-later laid-marked laid-push laid-spend limit-fits limit-positive listing-word loss-keeps
lost-bounded never-narrows never-wider next-is no-claim no-other-refusal no-segment not-empty not-member not-one not-refused
not-spent oldest-first oldest-is oldest-kept oldest-passes oldest-renonced oldest-so oldest-start on-from one-accepted
one-claim one-past orders-the-oldest other-reply proved-is-farthest proved-then refusal-at refusal-changes-nothing refusal-in
refusal-of refused-same reno-same repeat-due repeat-is repeat-put-back repeat-taken repeated-after repeats-as-sent rounded-up
same-accepted same-advance same-checks same-counted same-duplicate same-grounds same-reply same-segment segment-at
segment-next sent-is-bytes sent-so sent-table signalled-keeps single-credit spend-claims spend-none spend-renonced spend-set
spent-few spent-of spent-push spent-set start-next starts-at starts-counted starts-there still-held stream-holds sum-before
sum-having sum-none sum-push sum-renonced sum-split tells-now third-so third-tells-loss timed-out timed-out-bounded
timeout-keeps times-keeps times-sum to-acknowledge to-repeat to-send to-timeout told-either true-sum true-sum-is
two-words-each was-spent wider-credit widens-first with-due with-order with-words
""".split()

# the same, of names that port.py has respelled in specs/, proofs/ and src/, but not where a page quotes them
WORDS += """
any-next any-push at-once count-kept count-none end-to-end ends-by first-word has-room has-words is-true kept-by kept-map
known-next laid-from laid-kept none-left not-widened one-more one-value order-is put-back refusal-is same-first same-sum
second-word so-far sum-more sum-of sum-one table-same to-take told-more too-few words-left xor-shifted
""".split()

NAMES = {word: word.replace("-", "_") for word in WORDS}

# lemmas whose names join two names of functions
NAMES.update({
    "sum-map": "sum_of-map",
    "generated-length": "length-generated",
})

# steps and goals that the check names after functions and variables of src/
NAMES.update({
    "carry-limit-limit": "carry_limit-limit",
    "draw-segment-segment": "draw_segment-segment",
    "draw-segment-segment-requires": "draw_segment-segment-requires",
    "nonce-before-sum": "nonce_before-sum",
    "mark-spent": "mark_spent",
    "in-ok-check-send": "in_ok-check_send",
    "if-echoed-past": "if-echoed_past",
    "then-echoed-past": "then-echoed_past",
    "else-echoed-past": "else-echoed_past",
    "if-ends-by": "if-ends_by",
    "then-ends-by": "then-ends_by",
    "else-ends-by": "else-ends_by",
    "invariant-of-self": "invariant_of-self",
    "invariant-of-result": "invariant_of-result",
    "overflow-add-carry": "overflow_add-carry",
    "overflow-add-self": "overflow_add-self",
    "overflow-mul-share": "overflow_mul-share",
})

# a name of antt, whole: letters, digits, underscores, and the dashes that join them
NAME = re.compile(r"[^\W\d][\w']*(?:-[\w'≡]+)*")


def respelled(text):
    return NAME.sub(lambda found: NAMES.get(found.group(), found.group()), text)


def in_proofs(text):
    """A file of specs/ or proofs/: all but the comments, where only what stands in quotes is a name."""
    lines = []
    for line in text.split("\n"):
        code, dashes, comment = line.partition("-- ") if not line.startswith("--") else ("", line, "")
        lines.append(respelled(code) + dashes + comment)
    return in_quotes("\n".join(lines))


def in_quotes(text):
    return re.sub(r"`[^`\n]*`", lambda found: respelled(found.group()), text)


def in_sources(text):
    """A file of src/: the imports of ghosts, the clauses, and the ghost members, each to its end."""
    lines, depth, ghost = [], 0, False
    for line in text.split("\n"):
        begins = re.match(r"\s*(ghost |requires|ensures)", line)
        if begins or ghost:
            ghost = True
            depth += line.count("{") - line.count("}")
            line = respelled(line)
            if depth <= 0:
                ghost, depth = False, 0
        lines.append(line)
    return "\n".join(lines)


def rewrite(pattern, change):
    for path in sorted(glob.glob(pattern, recursive=True)):
        with open(path, encoding="utf-8") as file:
            old = file.read()
        new = change(old)
        if new != old:
            with open(path, "w", encoding="utf-8") as file:
                file.write(new)


rewrite("crates/*/specs/**/*.antt", in_proofs)
rewrite("crates/*/proofs/**/*.antt", in_proofs)
rewrite("crates/*/src/**/*.rt", in_sources)
rewrite("docs/*.md", in_quotes)
rewrite("README.md", in_quotes)
