#!/usr/bin/env python3
"""Brings the names of this repository's definitions, facts and lemmas to today's spelling.

usage: python3 tools/respell.py        at the top of the repository, once, right after the toolchain's own script

A definition or a lemma is in snake case, a fact or a record in upper camel case. Only the names listed in NAMES are
respelled, and only whole names: generated names of goals, strings and comments of the code stay as they are.
"""

import os
import re

# names whose plain respelling would be a word of the library, or a worse name
OTHER = {
    "bit-and": "bit_bit_and",
    "bit-or": "bit_bit_or",
    "getD-zeros": "slice_index_zeros",
}

NAMES = """
Fills-in First-unread Goes-back Holds-each In-use Longest-plateau Marks-agree Nothing-laid Opens-if Pair-in-use
Part-has Point-agrees Same-from Same-marks Same-rows Same-size Some-row Whole-number Word-has Zero-outside
agrees-blank agrees-fewer agrees-laid agrees-still agrees-with all-at answers-back answers-fill answers-lay
answers-limit answers-look answers-mark answers-settle answers-withdraw any-too-high back-refusal begin-live
begun-next bit-and bit-half bit-less bit-low bit-lt bit-mod bit-or bit-pow bit-shl bit-shr bit-zero both-at-least
by-like capped-lt capped-next carried-fewer carries-back carries-lay carries-limit carries-mark carries-settle
carries-withdraw completable-of complete-still continued-of current-run decides-high
decides-member decides-past decides-zero decimal-after decimal-value each-low ending-equal ending-one ending-other
fallen-hatchings fallen-results fewer-limited fewer-struck fill-refusal first-like first-row first-unread
formula-code formula-pairs found-high front-first front-le front-next front-whole gather-all gather-more
gather-skip gathers-holds getD-zeros go-live has-with holds-alone holds-image holds-intersection holds-less
holds-like holds-one holds-preimage holds-union holds-with holds-with-past holds-without holds-without-past
holds-zero how-many how-many-le how-many-none how-many-suc iff-back iff-on image-by image-same image-then in-below
is-blank is-dead joined-one judged-still kept-had kept-used lay-all lay-more lay-none lay-refusal
leading-no leading-yes less-without limit-loses limit-refusal live-begin live-chosen live-first live-go
live-goes-on live-next live-start-is live-starts live-word longest-capped longest-more longest-one look-refusal
lowest-above lowest-in lowest-inside lowest-like mark-refusal marks-like marks-more max-capped next-value
no-blank-left none-fewer none-high none-in-zeros none-less none-past none-struck not-zero of-kind on-hatchings
on-states ones-digit ones-size only-other onward-more opens-like other-kind parts-of parts-small plateau-begins
plateau-goes-on plateau-machine plateau-outcome plateau-step possible-of pow-le pow-over preimage-by
preimage-same preimage-then put-above put-below put-here put-more reach-more reachable-chosen reachable-few
reachable-of reachable-small refusal-number row-down run-after same-marks same-used saved-of seqbin-exact
settle-refusal settle-rows settled-of shortage-number shown-bit sift-none sift-skip sift-take size-le size-within
some-high some-like some-mark some-member stand-number state-first state-more state-one stretch-at
stretch-machine stretch-outcome stretch-rises stretch-stays stretch-step struck-at struck-set struck-take
table-pairs takes-holds through-last through-more through-of through-small through-step to-diagonal
too-high total-le total-more total-none total-set uses-of walk-next walk-on withdraw-loses withdraw-refusal
Moved-into no-blank no-i no-k not-all not-high right-size same-cause yes-a yes-high
within-le words-after words-behind-blanks words-on yields-of zeros-behind
""".split()


def respelled(name):
    if name in OTHER:
        return OTHER[name]
    if name[0].isupper():
        return "".join(word[0].upper() + word[1:] for word in name.split("-"))
    return name.replace("-", "_")


TABLE = {name: respelled(name) for name in NAMES}
# a name ends at a blank, a bracket, a dot or a stop; strings and the comments of code are passed over
TOKEN = re.compile(r'"(?:[^"\\]|\\.)*"|//[^\n]*|[^\s(){}.,;:"]+')


def main():
    made = {}
    for old, new in TABLE.items():
        if new in made:
            raise SystemExit(f"{old} and {made[new]} fall together")
        made[new] = old
    for root, folders, files in os.walk("crates"):
        folders[:] = sorted(f for f in folders if f != "out")
        for file in sorted(files):
            if not file.endswith((".rt", ".antt")):
                continue
            path = os.path.join(root, file)
            with open(path, encoding="utf-8") as f:
                text = f.read()
            after = TOKEN.sub(lambda m: TABLE.get(m.group(0), m.group(0)), text)
            if after != text:
                with open(path, "w", encoding="utf-8") as f:
                    f.write(after)


main()
