#!/usr/bin/env python3
"""Lists the places in crates/*/src that docs/DESIGN-PASS.md counts, by point.

usage: tools/places.py [POINT]      at the top of the repository; without a number, the counts alone

1  own enums; flags and numbers for kinds among the fields of structs; numbers for refusals
2  functions alike but for names, types and numbers; structs with the same fields' names
3  loops that count or search by hand
4  functions that convert, copy or compare by hand
5  facts in the contracts of three functions or more; parameters that three functions or more take together
6  a buffer with a place or a length beside it; arrays side by side
7  a choice by number of what to run
"""
import collections, glob, re, sys

FILES = sorted(glob.glob("crates/*/src/*.rt"))
TYPES = r"\b(u8|u16|u32|u64|usize|i32|i64|f32|f64|bool)\b"
WORDS = {"let", "mut", "if", "else", "return", "match", "for", "in", "while", "fn", "as", "true", "false", "break", "T"}


def text_of(path):
    kept = []
    for line in open(path, encoding="utf-8"):
        if line.startswith("#[cfg(test)]"):
            break
        kept.append(line)
    return "".join(kept)


def plain(text):
    return re.sub(r"//[^\n]*", "", text)


class Function:
    pass


def functions():
    for path in FILES:
        text = text_of(path)
        head = r'^( *)(?:pub )?(?:const )?(?:extern "C" )?fn (\w+)(?:<[^(]*>)?\('
        for m in re.finditer(head, text, re.M):
            f = Function()
            f.path, f.name = path, m.group(2)
            f.line = text.count("\n", 0, m.start()) + 1
            f.public = "pub " in text[m.start() : m.end()]
            end = re.compile(rf"^{m.group(1)}\}}$", re.M).search(text, m.end())
            whole = text[m.start() : end.end() if end else len(text)]
            opened = re.search(rf"\)[^{{}}]*?\{{|^{m.group(1)}\{{$", whole, re.M)
            body = re.search(rf"^{m.group(1)}\{{\n", whole, re.M)
            if body:
                f.head, f.body = whole[: body.start()], plain(whole[body.end() :])
            else:
                f.head, f.body = whole[: opened.end()] if opened else whole, plain(whole[opened.end() :]) if opened else ""
            signature = re.split(r"\n\s*(?:requires|ensures)\b", f.head)[0]
            f.signature = " ".join(signature.split())
            f.clauses = re.findall(r"(?:requires|ensures)(?: \w+)? \{ (.*) \}", f.head)
            yield f


def structs():
    for path in FILES:
        text = plain(text_of(path))
        for m in re.finditer(r"^(?:pub )?struct (\w+)[^{;]*\{(.*?)^\}", text, re.M | re.S):
            fields = re.findall(r"(?:pub )?(\w+): ([^\n]+),", m.group(2))
            yield path, text.count("\n", 0, m.start()) + 1, m.group(1), fields


def at(f):
    return f"{f.path}:{f.line} {f.name}"


def normal(f):
    """A function's parameters and body with its own words left out: names by the order of their first use, one type, one number."""
    text = f.signature[f.signature.find("(") :] + " " + f.body
    text = re.sub(TYPES, "T", text)
    text = re.sub(r"\b(0x[0-9a-f_]+|[0-9][0-9_]*(\.[0-9_e]+)?)(T)?\b", "N", text)
    names = {}

    def rename(m):
        word = m.group(0)
        if word in WORDS or word == "N":
            return word
        return names.setdefault(word, f"n{len(names)}")

    return re.sub(r"\b[A-Za-z_]\w*\b", rename, " ".join(text.split()))


def point_1():
    for path in FILES:
        text = plain(text_of(path))
        for m in re.finditer(r"^(?:pub )?enum (\w+)", text, re.M):
            yield f"enum {path} {m.group(1)}"
    numbers = r"mode|carry|opened|phase|level|confirmed|ref_pending|started|open|truncated|fsk_phase|early|fsk_has_prev|fsk_open|fsk_full|state|cut|fsk|kind|is_fsk|p_level|p_confirmed"
    for path, line, name, fields in structs():
        for field, type_ in fields:
            if type_ == "bool" or (type_ == "u32" and re.fullmatch(numbers, field)):
                yield f"flag {path}:{line} {name}.{field}: {type_}"
    for f in functions():
        if re.search(r"refus|check\b|first_failed|is_late|no_antenna", f.name) and re.search(r"-> (u32|bool|Reply)$", f.signature):
            yield f"refusal {at(f)}"
        if re.search(r"_number$|_kind$|carrier_\w+$|^next_envelope$", f.name) and not re.search(r"^put_number$|carrier_if|carrier_of", f.name):
            yield f"kind {at(f)}"


def point_2():
    alike = collections.defaultdict(list)
    for f in functions():
        text = normal(f)
        if len(text) > 60 and f.name != "main":
            alike[text].append(f)
    for fs in alike.values():
        if len(fs) > 1:
            yield "functions " + ", ".join(at(f) for f in fs)
    seen = collections.defaultdict(list)
    for path, line, name, fields in structs():
        seen[frozenset(n for n, _ in fields)].append(f"{path}:{line} {name}")
    for names in seen.values():
        if len(names) > 1:
            yield "structs " + ", ".join(names)


def point_3():
    for f in functions():
        for m in re.finditer(r"^\s*(while [^\n]*|loop|for [^\n]*\.\.[^\n]*)\{", f.body, re.M):
            yield f"{at(f)}: {m.group(1).strip()}"


def point_4():
    by_hand = r"wide|low|bit|same|anew|without_antenna|phase_of|reply_of|lane_of|answer_of|join|put_word|glyph|smaller|larger|min_of|max_of|longer|number|sat_add|sat_sub|sat_sub32|at_most_\d+|is_stay|is_refused|is_step|is_begin|is_late|is_heard|args_of|inc|pick|pick_grid|both|get|next_number|next_envelope|carrier_kind|carrier_first|carrier_second"
    for f in functions():
        if re.fullmatch(by_hand, f.name):
            yield at(f)


def parts(clause):
    return [p.strip() for p in re.split(r" × ", clause)]


def point_5():
    facts, together = collections.defaultdict(set), collections.defaultdict(set)
    for f in functions():
        for kind, clause in re.findall(r"(requires|ensures)(?: \w+)? \{ (.*) \}", f.head):
            for part in parts(clause):
                part = re.sub(r"^\(|\)$", "", part) if part.count("(") != part.count(")") or part.startswith("(") and part.endswith(")") else part
                if kind == "requires" and len(part) > 8:
                    facts[re.sub(r"\b\d+\b", "N", part)].add(at(f))
        params = re.findall(r"(\w+): (&?[^,)]*)", f.signature)
        for (a, t), (b, u) in zip(params, params[1:]):
            if "&" in t + u or (a, b) == ("same", "short"):
                together[a, b].add(at(f))
    for fact, fs in sorted(facts.items(), key=lambda x: -len(x[1])):
        if len(fs) > 2:
            yield f"fact {len(fs)}: {fact}"
    for pair, fs in sorted(together.items(), key=lambda x: -len(x[1])):
        if len(fs) > 4:
            yield f"together {len(fs)}: {', '.join(pair)}"


def point_6():
    for f in functions():
        if re.search(r"\w+: &(?:'a )?(?:mut )?\[[^\]]*\](?:; \d+\])?, (?:at|from|used|have|end|last|n|i|p|len|lo): (?:usize|u32|u64)\b", f.signature):
            yield f"place {at(f)}"
        if re.search(r"\bre: &?(?:mut )?\[", f.signature):
            yield f"side by side {at(f)}"
    for path, line, name, fields in structs():
        arrays = [n for n, t in fields if t.startswith("[")]
        counts = [n for n, t in fields if re.search(r"_n$|_cand$", n) and t in ("u32", "usize")]
        if arrays and counts:
            yield f"struct {path}:{line} {name}: {', '.join(arrays + counts)}"


def point_7():
    for f in functions():
        m = re.search(r"match (\w[^{\n]*) \{\s*\d+ =>", f.body)
        if m:
            yield f"{at(f)}: match {m.group(1)}"


POINTS = [point_1, point_2, point_3, point_4, point_5, point_6, point_7]
if len(sys.argv) > 1:
    for place in POINTS[int(sys.argv[1]) - 1]():
        print(place)
else:
    for i, point in enumerate(POINTS, 1):
        kinds = collections.Counter(p.split(" ")[0] if i in (1, 2, 5, 6) else "places" for p in point())
        print(f"{i}: {sum(kinds.values())}  " + ", ".join(f"{n} {k}" for k, n in kinds.items()))
