#!/usr/bin/env python3
"""Spells the repository's own definitions and lemmas as the library's are spelled, once, at the top of the repository.

Names are in snake case, facts and promises in camel case. A few equations keep the dash between the calls on their left side, as
`count-then`. Functions of src/, strings and comments that name none of these stay as they are.
"""

import glob
import os
import re
import sys

# facts and promises
FACTS = """
Accepted-exactly-canonical Derives-its-text Faults-as-listed Loaded-exactly One-record Reading-and-copying-undo Reads-soundly
Refused-as-listed Same-is-equal Stands-in-text Takes-in Unloaded-as-listed
""".split()

# words that were in camel case
WORDS = """
atomThen checkLine digitAt isDigit lexemeAt loadingFrom readingFrom refusalLine stringAt textThen valueAfter
""".split()

# equations, named by the calls on the left side; `count-row`, `count-then`, `depth-then`, `onward-none` and `then-none` are so already
EQUATIONS = {
    "length-put": "length-put_at",
    "put-append": "put_at-append",
    "text-append": "text_then-append",
    "text-then": "text_then-then",
}

# every other name with a dash: words, constructors, lemmas that say a fact
DASHED = """
absent-first absent-left absent-nothing absent-right absent-row accepted-canonical accepted-text apart-left apart-right
apart-row at-closing at-complete at-full at-opening at-stray at-string atom-at atom-at-reading atom-begins atom-behind
atom-digits atom-laid atom-node atom-not-list atom-same atom-small atom-stands atom-told begins-false begins-is begins-not
begins-true behind-no behind-root behind-split behind-stops behind-string behind-yes below-written body-colon body-ends
body-short body-told body-whole cases-digit cases-due cases-sized closed-read closed-refused concluded-refused counted-all
counted-atom counted-list counted-more counted-most counts-more decimal-digits decimal-is decimal-of decimal-plain
decimal-text decimal-value depth-row derives-its-text digit-false digit-is digit-true digits-all digits-behind digits-no
digits-split digits-yes element-less element-measure ends-length ends-list ends-not ends-not-list ends-octets fault-due
fault-read first-in first-most first-none first-same first-stands found-atom found-close found-end found-list found-token
front-stands front-start full-false full-not full-true held-parts inner-less is-fault joined-part kind-atom kind-list kind-of
kind-reading kind-root last-digit laying-long laying-short laying-whole lays-append lays-count left-measure length-atom
length-decimal-ever length-decimal-more length-decimal-most length-decimal-one length-first length-list length-signed-ever
length-signed-most length-spelled length-text-most level-behind lex-atom lex-closing lex-digit lex-digits lex-fault
lex-opening lex-string list-laid list-node list-stands listed-refused load-verdict more-digits next-found next-none next-root
next-some next-stands no-atom no-digits not-read not-refused octets-of one-record onward-read onward-refused opened-closed
opened-read opened-refused or-else or-first outer-down over-is over-not over-true padded-at padded-not padded-zero part-behind
part-depth part-inside part-or part-part part-short passed-read put-at put-atom put-list put-middle put-more putting-more
read-text reads-atom reads-list reads-root reads-run reads-string refused-listed refused-listed-both refused-same
rejected-same room-atom room-first room-list root-atom root-found root-list row-kind row-no-list row-none row-octets row-some
run-laid run-measure said-by same-equal same-is-equal same-part sexp-derived sexp-held sexp-record sexp-text sexps-derived
sexps-held sexps-text short-held short-parts short-then some-digits some-elements sound-closing sound-end sound-opening
sound-string sound-token spans-close spans-deep spans-more spans-none spans-refused stands-atom stands-closing stands-opening
stands-token step-closing step-early step-fault step-opening step-string step-whole stops-colon string-body string-derived
string-fits string-held string-read string-text string-told text-accepted text-atom text-first text-front text-last text-list
text-most text-some text-tree then-assoc token-no-fault token-string told-fault verdict-sized verdict-unsized was-open
worth-more
""".split()

# cycles of calls, named by what they do
CYCLES = {
    "check_element_check_list": "check",
    "element_length_run_length": "measure",
    "put_element_put_run": "put",
    "load_element_load_list": "load",
}


def camel(name):
    return "".join(part[0].upper() + part[1:] for part in name.split("-"))


def snake(name):
    return re.sub(r"([a-z])([A-Z])", lambda m: m.group(1) + "_" + m.group(2).lower(), name).replace("-", "_")


def spellings():
    new = {name: camel(name) for name in FACTS}
    new |= {name: snake(name) for name in WORDS + DASHED}
    return new | EQUATIONS | CYCLES


# an antt name goes on over letters, digits, dashes and primes
PARTS = r"[\w'\-\u2080-\u2089]"


def files():
    for pattern in ("crates/*/specs/**/*.antt", "crates/*/proofs/**/*.antt", "crates/*/src/**/*.rt"):
        for path in sorted(glob.glob(pattern, recursive=True)):
            if "/out/" not in path:
                yield path


def main():
    new = spellings()
    texts = {path: open(path, encoding="utf-8").read() for path in files()}
    words = {path: set(re.findall(PARTS + "+", text)) for path, text in texts.items()}
    together = [(old, name, path) for old, name in new.items() for path in words if old in words[path] and name in words[path] and old != name]
    for old, name, path in together:
        print(f"look: {path} has {name} already, beside {old}")
    finder = re.compile(rf"(?<!{PARTS})(" + "|".join(map(re.escape, sorted(new, key=len, reverse=True))) + rf")(?!{PARTS})")
    for path, text in texts.items():
        turned = finder.sub(lambda m: new[m.group(1)], text)
        if turned != text:
            with open(path, "w", encoding="utf-8") as f:
                f.write(turned)
    for old, name in CYCLES.items():
        for folder in glob.glob(f"crates/*/proofs/**/+{old}", recursive=True):
            os.rename(folder, os.path.join(os.path.dirname(folder), "+" + name))
    return 0


if __name__ == "__main__":
    sys.exit(main())
