#!/usr/bin/env python3
"""Counts the places of src/ that docs/DESIGN-PASS.md speaks of, point by point: run it at the top of a checkout.

Each row is a pattern over the lines of crates/*/src/**/*.rt (or of the folder that the row names), and how many lines match it. With -l the lines
are listed. A match is a place to look at; the page says which of them are places of the point.
"""
import glob
import re
import sys

SRC = "crates/*/src/**/*.rt"
ANSWERS = "crates/*/proofs/**/Answers.antt"

ROWS = [
    ("1 enums", SRC, r"^(pub )?enum \w+"),
    ("1 cases Refused, Stopped, Blocked with a number", SRC, r"^ +(Refused|Stopped|Blocked) \{ number: u64"),
    ("1 refusals by number", SRC, r"number: [A-Z]|refused\([A-Z]|Verdict::DAMAGED;"),
    ("1 answers taken apart to go on", SRC, r"Fine = |(Refused|Stopped|Blocked) \{ number, value \} =>"),
    ("1 numbers for kinds and refusals", SRC, r"^(pub )?const [A-Z_]+: u64 = \d{1,2};"),
    ("1 numbers that stand for none", SRC, r"BAD: usize|return BAD|\bALL$|return ALL;|ensures \{ result ≡ vacant"),
    ("2 twins by an arena's or a field's name", SRC, r"^(pub )?fn (\w+_front|list_of|put_list|\w+s_of|put_(cells|slots|reports)|lower_to_\w+|(read_)?(number_of|about)|(un)?front(_mut)?|answer_at|live_value|same|upto|comma)\b"),
    ("2 the same main", "crates/replay*/src/main.rt", r"^fn main"),
    ("3 while", SRC, r"^ *while "),
    ("3 counted by hand", SRC, r"^ *(left|rest|i|e|a|at|row|turns|k|count|done) [-+]= \d;"),
    ("3 for over a range", SRC, r"^ *for \w+ in [^{]*\.\."),
    ("4 compared by their numbers", SRC, r"\.0 [!=]= \w+\.0\b"),
    ("4 the lesser, by hand", SRC, r"fn (at_most|slots_in|lesser|fewer|cut|raised|lowered)\b|if (\w+) < [\w ]+ \{ \2"),
    ("4 copied or filled one by one", SRC, r"^ +\w+(\[[^\]]+\])+ = (\w+\[[^\]]+\](\[[^\]]+\])?|w\[i\]|0|\[0; WIDTH\]);"),
    ("5 functions over an arena of cells", SRC, r"^ *cells: &(mut )?\[\[u64"),
    ("5 facts asked for", SRC, r"requires.*(HasCell|SlotFine|StoreFine|meta_words ≤|Lent |Sane )"),
    ("6 a length beside a buffer", SRC, r"^ *(count|end|n): usize,|(ids|listed|reports|numbers|args|results)[^)]*, (count|n|end): (u64|usize)"),
    ("7 a number that says which step", SRC, r"match (verb|of) \{|if (verb|of|self\.arena) (==|<) "),
    ("8 answers", ANSWERS, r"^pub \S+ : goal\."),
]


def main():
    listed = "-l" in sys.argv[1:]
    for name, where, pattern in ROWS:
        hits = []
        for path in sorted(glob.glob(where, recursive=True)):
            with open(path, encoding="utf-8") as f:
                hits += ["%s:%d:%s" % (path, k, line.rstrip("\n")) for k, line in enumerate(f, 1) if re.search(pattern, line)]
        print("%4d  %s" % (len(hits), name))
        if listed:
            print("".join("        %s\n" % h for h in hits), end="")


main()
