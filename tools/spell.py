#!/usr/bin/env python3
"""Gives the repository's own definitions and lemmas the library's spelling: words in snake case, a prime as an apostrophe.

usage: tools/spell.py [--check]     at the top of the repository

It goes by whole words. A word turns where it has a dash or an inner capital letter and is declared, or bound, in a file of specs/ or
proofs/. Names of the library, of functions and those that Rattle makes of the code (`returns-2`, `loop-test`) stay. It turns code and
comments of .antt files, clauses and comments of .rt files, the edits of must-fail/, and code spans of pages. --check writes nothing,
and prints what would fall together. A second run writes nothing more.
"""

import collections
import os
import re
import sys

WORD = re.compile(r"[^\s(){}.;,@\"«»\[\]|`:]+|(?<=`)[^\s`]+(?=`)")
SIGNED = re.compile(r"(?m)^[ \t]*(?:(?:pub|abbrev|unfoldable|private|let)\s+)*([^\s(){}.;,\"]+)\s*(?:\{[^}]*\}\s*|\([^)]*\)\s*)*:\s")
BOUND = re.compile(r"(?:λ\s+([^.]*?)\.\s)|(?:let\s+([^\s:=(]+))")
MADE = re.compile(r"(?:returns|loop|invariant|decreases|Need|After|Before|In|Then|Else|Inv|Lts|overflow|bounds|slice_bounds|nonzero_div|nonzero_rem|if|enum)-.*|.*-(?:requires|aggregate|preserved|init|smaller)(?:-\d+)?|loop_test")
# Two old names that would fall together, or a new name that something else has: the new name by hand.
BY_HAND = {"maxPulses": "most_pulses", "in-units": "in_units_lem", "is-nan": "is_nan_lem"}
# Lemmas that would have their function's name. Right behind a dot such a name is a field, or a call that Rattle names, and takes no ending.
LEMMAS = """all-fail begin-bytes burst-ok burst-step cand-ok carry-bytes close-bytes entry-ruled env-ok frame-ok handed-on lead-ok lead-step
no-frame no-out none-text open-bytes out-ok pres-ok settings-bytes step-bytes tells-asked train-of train-ok no-run""".split()
# The same in one folder, where the first script has turned the lemma and not the function.
TURNED = {"crates/reached/": ["run_ok", "none_done"]}
# What the kit's script had turned before in crates/: these turn in pages and edits alone.
EARLIER = """above-zero after-none after-on after-one after-same afterCall all-edges all-nil all-pass all-stay all-there and-then answerOf
argsOf as-many at-drop at-least at-most at-once at-place at-rest at-top at-zero atOf atStart below-top bits-of-value block-spec
bodyOf both-left both-right both-true by-order by-sign by-slots by-value byte-at byte-more callOf callsAt callsOf carry-back
clear-spec close-open close-spec code-of coreOf count-kept counts-all crossOf doneOf each-append edgeAt edgeOf edgesAt either-true
end-is end-none endOf ends-by ends-there endsWith entry-at entryOf fields-fit fill-end fill-spec fill-start finish-spec
first-found first-next first-spec firstOf fit-none flat-append float-at float-back floatOf follows-is found-before four-runs
frameOf full-is get-spec goes-on goes-step goes-through held-first heldAt highOf in-both in-field in-use inc-spec index-ok
inf-bits is-at joined-back kept-next laid-out laneOf laneOk laneVal last-fits last-none last-snoc lastBy lastOf lastOr late-is
least-under left-end length-float lineOf linesOf list-back long-after long-as lt-of mag-low maxOf mostOf n-len namedOf nan-is
next-down next-more next-up nextOf no-call no-less no-lower no-nan no-number no-other no-room no-second no-step no-tie noArgs
noEnv noRun none-after none-answers none-done none-is none-left none-of none-within none-yet not-three nothing-left
numbered-within one-left one-less one-line one-more one-none one-only one-power one-shl oneOf only-end only-one open-spec
opened-one originOf out-one out-within outAt outOf over-zero own-alone own-lane pairAt partOf parts-held partsOf pass-spec
passed-then past-top pastOf placeOf pow-le-back put-back put-four put-other put-spec putAt raw-of read-fits read-low read-whole
readOf reads-none refusal-is rest-all rest-end restOf row-in rowOf rows-same run-at run-ok run-spec runAt runOf same-bits
same-digits same-half same-length same-lines same-power same-rest same-size same-spec secondOf seen-as set-past settledOf shown-by
signOf size-fits size-is size-none size-same size-small sizeOf slot-at slots-length slotsOf some-left spanOf start-spec startOf
stayBy stays-put step-back step-kept step-of step-room step-same step-spec stepOf stops-at store-spec storeOf sumAt tail-within
take-head take-min take-none taken-next takenOf text-same textOf to-step too-few too-large took-one turn-spec u32At units-of
up-one upTo used-all wait-spec waits-there wholeOf widen-keeps widen-spec width-spec widthBy widthOf with-none withFull withLast
withOut withRun within-new word-at word-back written-in writtenOf zero-by-zero zero-is zero-same zip-length""".split()
COMMENT = re.compile(r"(?<![^\s(){}.;,@\"«»])--[^\n]*")
QUOTED = re.compile(r"\"(?:[^\"\\\n]|\\.)*\"")


def files(root, *ends):
    for folder, dirs, names in os.walk(root):
        dirs[:] = sorted(d for d in dirs if d not in ("out", "target", ".git"))
        for name in sorted(names):
            if name.endswith(ends):
                yield os.path.join(folder, name)


def read(path):
    with open(path, encoding="utf-8") as f:
        return f.read()


def turns(word):
    if MADE.fullmatch(word) or "◌" in word or "::" in word or "·" in word:
        return False
    return bool(re.search(r"[A-Za-z]", word)) and (("-" in word.strip("-")) or bool(re.match(r"[a-z][\w-]*[A-Z]", word)) or "′" in word)


def spelled(word):
    if word in BY_HAND:
        return BY_HAND[word]
    parts = []
    for part in word.replace("′", "'").split("-"):
        if part[:1].isupper() and not part.isupper():
            parts.append(part)
        else:
            parts.append(re.sub(r"(?<=[a-z0-9])([A-Z])", lambda m: "_" + m[1].lower(), part))
    out = parts[0]
    for before, part in zip(parts, parts[1:]):
        type_name = lambda p: p[:1].isupper() and len(p) > 1 and not p.isupper()
        out += ("-" if type_name(before) or type_name(part) else "_") + part
    return out


def table(root):
    own, other = set(), collections.defaultdict(set)
    for path in files(os.path.join(root, "crates"), ".antt"):
        text = QUOTED.sub(" ", COMMENT.sub("", read(path)))
        found = {m[1] for m in SIGNED.finditer(text)}
        found |= set(re.findall(r" as ([^\s,}]+)", text))
        for m in BOUND.finditer(text):
            found |= set(re.findall(r"[^\s(){}:,]+", m[1] or m[2]))
        own |= {w.strip("«»") for w in found}
    return {w: spelled(w) for w in own if turns(w) and spelled(w) != w}


def library(kit):
    known = set()
    for path in files(kit, ".antt"):
        if "/examples/" not in path and "/tests/" not in path:
            known |= set(WORD.findall(QUOTED.sub(" ", COMMENT.sub("", read(path)))))
    return known


def turn(text, names):
    def one(m):
        new = names.get(m[0], m[0])
        if m[0] in LEMMAS and text[m.start() - 1 : m.start()] != ".":
            new += "_lem"
        return new

    return WORD.sub(one, text)


def spans(text, names):
    fence = re.split(r"(?ms)(^```.*?^```)", text)
    for at, part in enumerate(fence):
        if not part.startswith("```"):
            fence[at] = re.sub(r"`[^`\n]+`", lambda m: turn(m[0], names), part)
    return "".join(fence)


def turned(path, text, names):
    if path.endswith(".md"):
        return spans(text, names)
    if path.endswith(".edit"):
        return "".join(turn(l, names) if l.startswith(("old:", "new:")) else spans(l, names) for l in text.splitlines(keepends=True))
    return "".join(p if p.startswith('"') else turn(p, names) for p in re.split(r"(\"(?:[^\"\\\n]|\\.)*\")", text))


def main(argv):
    root = os.getcwd()
    names = table(root)
    kit = os.environ.get("RATTLE_LIBRARY")
    if kit:
        known = library(kit)
        for w in sorted(names):
            if w in known:
                print("library:", w)
    if "--check" in argv:
        check(root, names)
        return 0
    earlier = {w: spelled(w) for w in EARLIER}
    count = 0
    done = os.path.join(root, "crates", "ieee", "proofs", "Nan.antt")
    if "is_nan_lem" in read(done):
        print("0 names, 0 files")
        return 0
    for path in list(files(os.path.join(root, "crates"), ".antt", ".rt", ".edit")) + [os.path.join(root, "README.md")] + list(files(os.path.join(root, "docs"), ".md")):
        text = read(path)
        pages = path.endswith((".md", ".edit"))
        new = turned(path, text, {**earlier, **names} if pages else names)
        for folder, words in TURNED.items():
            if os.path.relpath(path, root).startswith(folder) and path.endswith(".antt"):
                # what the first script had turned: the new text has the function's name too, so it goes by the old one
                new = turned(path, re.sub(r"(?<![\w.'-])(%s)(?![\w'-])" % "|".join(words), r"\1_lem", text), names)
        if new != text:
            count += 1
            with open(path, "w", encoding="utf-8") as f:
                f.write(new)
    print(f"{len(names)} names, {count} files")
    return 0


def check(root, names):
    back = collections.defaultdict(set)
    for old, new in names.items():
        back[new].add(old)
    plain, where = set(), collections.defaultdict(set)
    for path in files(os.path.join(root, "crates"), ".antt", ".rt"):
        text = QUOTED.sub(" ", COMMENT.sub("", read(path)))
        if path.endswith(".rt"):
            text = re.sub(r"//[^\n]*", "", text)
        words = set(WORD.findall(text))
        for w in words:
            if w not in names:
                plain.add(w)
        for w in words:
            if w in names and names[w] in words:
                where[w].add(os.path.relpath(path, root))
    for new, olds in sorted(back.items()):
        if len(olds) > 1:
            print("together:", new, sorted(olds))
    for w in sorted(where):
        print("same file:", w, names[w], sorted(where[w])[:6])


if __name__ == "__main__":
    raise SystemExit(main(sys.argv[1:]) or 0)
