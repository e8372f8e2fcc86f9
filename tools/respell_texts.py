#!/usr/bin/env python3
"""Brings names in README.md, docs/ and examples/README.md, as they stand between backticks, to today's spelling.

usage: python3 tools/respell_texts.py OLD      at the top; OLD is a checkout of the commit before the respelling

A name that a file of specs/ or proofs/ of OLD declares, and that today's declare in another spelling, is replaced.
"""
import glob
import os
import re
import sys

import respell

PLAIN = {"jobOf": "job_of", "stepOf": "step_of", "upTo": "up_to", "all-map": "all_map", "none-of": "none_of",
         "same-entries": "same_entries", "of-parts": "of_parts", "encode-injective": "encode_injective",
         "at-most": "at_most", "atMost": "at_most", "just-one": "just_one", "order-free": "order_free",
         "alike-free": "alike_free", "inverseImage": "inverse_image", "rows-mean-the-triplet": "rows-mean_the_triplet",
         "origin-is-the-sum": "origin_is_the_sum", "origin-is-rounded-once": "origin_is_rounded_once",
         "whole-constants-are-exact": "whole_constants_are_exact"}


def canon(name):
    return re.sub(r"[-_·]", "", name).lower().replace("′", "'")


def main():
    top = os.path.dirname(os.path.dirname(os.path.abspath(__file__)))
    old = respell.declared(respell.antt_files(sys.argv[1]))[1]
    new = respell.declared(respell.antt_files(top))[1]
    to, by = dict(respell.NAMES) | PLAIN, {}
    for n in new:
        by.setdefault(canon(n), set()).add(n)
    for n in old - new - set(to):
        for it in (canon(n), canon(n) + "lem"):
            if len(by.get(it, ())) == 1:
                to[n] = next(iter(by[it]))
                break
    for f in [top + "/README.md", top + "/examples/README.md", *glob.glob(top + "/docs/*.md")]:
        if os.path.basename(f) == "PORT.md":
            continue
        with open(f, encoding="utf-8") as it:
            text = it.read()
        said = respell.in_ticks(text, to)
        if said != text:
            with open(f, "w", encoding="utf-8") as it:
                it.write(said)


if __name__ == "__main__":
    main()
