#!/usr/bin/env python3
"""Prints the tables at the end of docs/DESIGN-PASS.md: what changed of the public functions, types, definitions and named theorems.

usage: tools/pairs.py OLD [NEW]      two trees of this repository; NEW is the one at hand where it is not given

A function stands with its clauses, a method with its type, a type with its fields and derives left out, a definition of specs/ with its
body; comments and layout do not count. Of proofs/ a law stands here where README.md or a page of docs/ names it.
"""
import collections, glob, os, re, sys


def bare(text, mark):
    return " ".join(re.sub(rf"{mark}[^\n]*", "", text).split())


def sources(top):
    for path in sorted(glob.glob(f"{top}/crates/*/src/**/*.rt", recursive=True)):
        text = open(path, encoding="utf-8").read()
        yield path[len(top) + 1 :].split("/")[1], re.split(r"^#\[cfg\(test\)\]", text, flags=re.M)[0]


FN = re.compile(r"^( *)((?:pub )?(?:const )?(?:unsafe )?(?:extern \"C\" )?fn (\w+))", re.M)


def functions(top):
    found = {}
    for crate, text in sources(top):
        blocks = [(m.start(), m.group(1)) for m in re.finditer(r"^((?:pub )?(?:impl|trait)\b[^\n{]*)\{$", text, re.M)]
        for m in FN.finditer(text):
            owner = ""
            if m.group(1):
                before = [b for b in blocks if b[0] < m.start()]
                owner = " ".join(before[-1][1].split()) if before else ""
            public = m.group(2).startswith("pub ") or "trait" in owner.split() or " for " in owner
            if not public:
                continue
            end = re.compile(rf"^{m.group(1)}\{{\n|\{{$|;$", re.M).search(text, m.end())
            head = text[m.start() : end.start() if end else len(text)]
            if end and text[end.start()] != "{" and not head.rstrip().endswith(")"):
                head = head.rstrip()
            short = re.sub(r"^(?:pub )?(?:impl|trait)(?:<[^>]*>)? ?", "", owner).strip()
            short = re.sub(r"<'\w+>", "", short)
            key = (crate, f"{short}::{m.group(3)}" if short else m.group(3))
            found[key] = (short + ": " if short else "") + bare(head, "//").replace("( ", "(").replace(", )", ")")
    return found


def types(top):
    found = {}
    for crate, text in sources(top):
        for m in re.finditer(r"^pub (struct|enum|type|trait|const) (\w+)", text, re.M):
            if m.group(1) == "trait":
                end = text.index("\n}", m.start()) + 2
                body = "\n".join(l for l in text[m.start() : end].split("\n") if l.strip().startswith(("pub trait", "ghost", "}")) and "ghost use" not in l)
                found[crate, m.group(2)] = bare(body, "//")
                continue
            line = text[m.start() : text.index("\n", m.start())]
            end = text.index("\n", m.start()) if line.rstrip().endswith((";", "}")) else text.index("\n}", m.start()) + 2
            found[crate, m.group(2)] = bare(text[m.start() : end], "//").replace(", }", " }")
    return found


def items(path):
    """The items of a file of definitions or proofs: each begins in the first column and goes on while lines are indented or define its name."""
    lines = [l.rstrip("\n") for l in open(path, encoding="utf-8") if not l.lstrip().startswith("--")]
    lines = [re.sub(r"\s+--[^\n]*$", "", l) for l in lines]
    item, name, kept = [], None, []
    for l in lines + [""]:
        m = re.match(r"(?:unfoldable |abbrev |irreducible )*(?:pub )?(?:record |data )?([\w'·◌≡]+) ?(?::|\(|\{)", l)
        if not l.strip() or l.startswith(("use ", "pub use ", "pub mod ", "mod ")):
            if name:
                kept.append((name, item))
            item, name = [], None
        elif l[0] not in " \t" and (name is None or (re.match(r"(?:unfoldable|abbrev|pub|record|data)\b", l) and not l.startswith("unfolding"))):
            if name:
                kept.append((name, item))
            item, name = [l], None
            head = re.sub(r"^(?:(?:unfoldable|abbrev|pub|record|data|tactic|law) )+", "", l)
            name = re.split(r"[ :({]", head)[0]
        elif item:
            item.append(l)
    return kept


def definitions(top):
    found = {}
    for path in sorted(glob.glob(f"{top}/crates/*/specs/**/*.antt", recursive=True)):
        crate = path[len(top) + 1 :].split("/")[1]
        if "/declared/" in path:
            continue
        for name, lines in items(path):
            if re.match(r"(?:unfoldable |abbrev )?pub ", lines[0]):
                found[crate, name] = bare("\n".join(lines), "@@")
    return found


def named(tops):
    text = ""
    for top in tops:
        for path in [f"{top}/README.md", *glob.glob(f"{top}/docs/*.md"), *glob.glob(f"{top}/docs/changes/*.md")]:
            if not path.endswith("DESIGN-PASS.md"):
                text += open(path, encoding="utf-8").read()
    return set(re.findall(r"[A-Za-z][\w']*_[\w']*", text))


def laws(top, names):
    found = {}
    for path in sorted(glob.glob(f"{top}/crates/*/proofs/**/*.antt", recursive=True)):
        crate = path[len(top) + 1 :].split("/")[1]
        for name, lines in items(path):
            if name in names and ":" in " ".join(lines):
                head = []
                for l in lines:
                    if head and l and l[0] not in " \t":
                        break
                    head.append(l)
                found[crate, name] = re.sub(r"^(?:unfoldable |abbrev )?(?:pub )?", "", bare("\n".join(head), "@@"))
    return found


def shown(old, new):
    def cell(t):
        return "`" + t.replace("|", "\\|") + "`" if t else ""

    changed = sorted(k for k in old.keys() & new.keys() if old[k] != new[k])
    gone, more = sorted(old.keys() - new.keys()), sorted(new.keys() - old.keys())
    print(f"{len(changed)} changed, {len(gone)} gone, {len(more)} new.\n\n| crate | old | new |\n|---|---|---|")
    for k in changed + gone + more:
        print(f"| {k[0]} | {cell(old.get(k))} | {cell(new.get(k))} |")
    print()


def main():
    if len(sys.argv) < 2:
        sys.exit(__doc__)
    old, new = sys.argv[1], sys.argv[2] if len(sys.argv) > 2 else "."
    names = named([old, new])
    print("### Public functions\n")
    shown(functions(old), functions(new))
    print("### Public types\n")
    shown(types(old), types(new))
    print("### Definitions and statements in specs/\n")
    shown(definitions(old), definitions(new))
    print("### Laws and theorems of proofs/ that README or docs/ name\n")
    shown(laws(old, names), laws(new, names))


main()
