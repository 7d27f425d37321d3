#!/usr/bin/env python3
"""Brings this repository's own definitions and lemmas to the spelling of today's Rattle, and the must-fail edits with them.

usage: python3 tools/respell.py     once, at the top of the repository, right after port.py

port.py respells what stands in its lists. What is left are names of specs/ and proofs/: words joined by capitals or dashes become words
joined by underscores. A lemma that would then have its definition's name gets the ending _lem. Names of src/, of C and of Rattle's own goals
stay. port.py does not read the must-fail edits: here their texts get the same names, and the library's words as port.py writes them. An edit
whose text then does not stand once in its file is named, and mended by hand.
"""

import collections
import glob
import re

# names that port.py itself turned, for the edits
PORTED = """addressOf aluWrites andThen answerOf atLeast atMost bitsOf bytesOf callOf cellAt cellsOf countOf dataOf endOf entryAt entryOf fieldsOf
flowOf groupOf holdsOf imageOf inMemory inRange inputAt isNone isSet isWhole joinOf jumpTo laidOf leftOf lineOf loadOf machineOf markOf nextOf
noWord numberIn numberOf placeIn placeOf popOf putOf readBy readOf restOf rowAt rowIn rowOf runFrom runOf stepOf tableOf topOf upTo wholeOf
widthOf wordAt wordBytes wordIn wordOf wordsIn writesAt writesOf writtenBy writtenOf zeroOf address-same all-of all-seen and-both and-left
and-right at-first at-last at-most at-most-one at-row before-same bit-below by-equal by-name by-number by-order by-parts by-row by-word
bytes-after bytes-below cells-are cells-out comes-back count-by count-of done-refused each-level end-of ended-so every-of few-words fields-back
fields-split first-byte first-step first-word found-at from-each from-found getD-past goes-on has-word in-list in-order in-rest in-table is-read
is-word length-part listed-in no-call no-cell no-key no-other no-register no-return no-row no-steps no-word no-zero none-inside none-kept
none-yet not-first nothing-left numbers-apart of-word once-by one-byte one-more one-place one-word operand-same or-else or-left or-right
passed-over past-two plus-assoc plus-none put-two put-word read-all read-as read-back record-is round-trip row-of row-same run-is same-bit
same-map same-outcome same-step set-after set-same side-by-side skip-at skip-below some-level some-of splice-front split-at stands-by step-counts
step-keeps sub-word taken-out too-few too-many too-short top-below was-read went-on whole-run word-at word-fits word-holds word-more written-back
written-in wrote-it""".split()

# a lemma that would get its definition's name, or a name that another thing has
APART = {
    "goesOn": "goes_on_after",
    "inList": "is_listed",
    "no_cell": "no_cell_lem",
    "word_holds": "word_holds_lem",
}
LEMMAS = """binary-difference entries-of every-at file-number first-from in-file in-range in-standby input-count is-marked is-none its-word line-of
marks-in-range raised-bytes rule-holds same-fields sheet-length sheet-section station-in unless-compared unless-empty unless-full with-skip
with-standby word-of""".split()

DECLARED = re.compile(r"^ *(?:(?:abbrev|unfoldable) )?(?:pub )?(?:abbrev |unfoldable )?([a-z][^\s:(){}]*) :(?!:)", re.M)
TOKEN = re.compile(r"(?<![\w'\u00b7-])[a-z][\w'-]*")


def snake(name):
    return re.sub(r"([a-z0-9])([A-Z])", lambda m: m[1] + "_" + m[2].lower(), name).replace("-", "_").replace("get_d_", "slice_index_")


def text_of(path):
    with open(path, encoding="utf-8") as it:
        return it.read()


def put(path, text):
    with open(path, "w", encoding="utf-8") as it:
        it.write(text)


def turned(text, names):
    def one(m):
        word = m[0]
        if word in names:
            return names[word]
        # a lemma's part that is a word of its own, as in length-part
        return word

    return TOKEN.sub(one, text)


def names_of():
    found = set()
    for path in glob.glob("crates/*/specs/*.antt") + glob.glob("crates/*/proofs/*.antt"):
        found |= set(DECLARED.findall(text_of(path)))
    names = {n: snake(n) for n in found if snake(n) != n}
    names.update({n: new for n, new in APART.items() if n in found})
    names.update({n: snake(n) + "_lem" for n in LEMMAS if n in found})
    became = collections.defaultdict(set)
    for n in found:
        became[names.get(n, n)].add(n)
    for new, olds in sorted(became.items()):
        if len(olds) > 1:
            print(f"respell: {', '.join(sorted(olds))} fall together as {new}")
    return names


def clause_lines(text, names):
    """Dashed names stand in the clauses of a source file alone; names with capitals are never Rust's."""
    capitals = {n: new for n, new in names.items() if re.search("[A-Z]", n)}
    out = []
    for line in text.split("\n"):
        ghost = re.match(r"\s*(ghost use|requires|ensures|invariant|decreases|#\[)", line) or re.search(r"[\u2261\u2264\u2192\u00d7\u03bb]", line)
        out.append(turned(line, names if ghost else capitals))
    return "\n".join(out)


ARG = r"(\((?:[^()]|\((?:[^()]|\([^()]*\))*\))*\)|[\w'.\u00b7-]+)"


ATOM = re.compile(r"[\w'.\u00b7-]+$")


def projected(text):
    """`f x .field` reads `(f x).field`, and `x .field` reads `x.field`."""
    while m := re.search(r" \.([a-z0-9][\w'-]*)", text):
        start, atoms = m.start(), 0
        while True:
            head = text[:start].rstrip(" ") if atoms else text[:start]
            if head.endswith(")"):
                depth, at = 0, len(head)
                while at:
                    at -= 1
                    depth += {")": 1, "(": -1}.get(head[at], 0)
                    if not depth:
                        break
                if depth:
                    break
            else:
                word = ATOM.search(head)
                if not word or head[word.start() :] in ("in", "let", "pub", "result =") or (atoms and len(text[:start]) - len(head) != 1):
                    break
                at = word.start()
            start, atoms = at, atoms + 1
        inner = text[start : m.start()]
        text = text[:start] + (f"({inner})" if atoms > 1 else inner) + f".{m[1]}" + text[m.end() :]
    return text


def library(text, at):
    """A text of an edit in the library's words of today. at tells a & from a &mut, by the names of the function's clauses."""
    text = re.sub(r"Rattle\u00b7(\w+)\u00b7(specs|proofs)\.\2\.", r"Rattle.\1.\2.", text)
    text = re.sub(r"Rattle\u00b7(\w+)\.", r"Rattle.\1.", text)
    text = text.replace("the-variants", "TheVariants")
    text = re.sub(r"now \((\w+) \.exit\)", r"\1.new", text)
    text = re.sub(r"\(now \((\w+) \.entry\)\)", lambda m: at(m[1]), text)
    text = re.sub(r"now \((\w+) \.entry\)", lambda m: at(m[1]), text)
    text = re.sub(r"\((\w+)\.(new|old|now)\)", r"\1.\2", text)
    text = re.sub(r"\u03bb (\w+)\. \u231c (.*) \u231d", lambda m: re.sub(rf"(?<![\w.]){m[1]}(?![\w'])", "result", m[2]), text)
    text = text.replace("\u231c ", "").replace(" \u231d", "")
    text = projected(text)
    text = re.sub(r"\(([\w']+(?:\.[\w'-]+)+)\)", r"\1", text)
    text = re.sub(r"\(([^()\u2192]*) \u2261 ([^()\u2192]*) \u2192 \u22a5\)", "(\\1 \u2262 \\2)", text)
    for _ in range(2):
        text = re.sub(r"\((\((?:[^()]|\([^()]*\))*\)(?:\.[\w'-]+)+)\)", r"\1", text)
    text = re.sub(r"(?<![\w.])getD \(", "slice_index (", text) if ") " not in text else text
    for _ in range(3):
        text = re.sub(r"(?<![\w.])getD " + ARG + " " + ARG + r" 0(?!\w)", r"slice_index \1 \2", text)
        text = re.sub(r"\(eqb " + ARG + " " + ARG + r"\)", r"(\1 == \2)", text)
        text = re.sub(r"(?<![\w.])getD(?= \(\w+(?: \w+)*$)|(?<![\w.])getD$", "slice_index", text)
        text = re.sub(r"(?<![\w.])eqb " + ARG + " " + ARG, r"\1 == \2", text)
    for old, new in (("leb", "nat_le"), ("ltb", "nat_lt"), ("bitAnd", "bit_and"), ("bitOr", "bit_or"), ("bitXor", "bit_xor")):
        text = re.sub(rf"(?<![\w.]){old}(?![\w'-])", new, text)
    text = re.sub(r"(?<![\w.-])set(?= [a-z(])", "slice_set", text)
    return text


def edit(path, names):
    everything = dict(names)
    everything.update({n: names.get(snake(n), snake(n)) for n in PORTED})
    crate = path.split("/must-fail/")[0]
    out, file, old, texts, left = [], None, None, {}, 0
    for line in text_of(path).split("\n"):
        if line.startswith("file: "):
            file = line[len("file: ") :].strip()
            out.append(line)
        elif line.startswith(("old: ", "new:")):
            head, body = line[:4], line[4:].removeprefix(" ")
            texts.setdefault(file, text_of(f"{crate}/{file}"))
            forms = [body, turned(body, everything)]
            forms += [turned(library(body, lambda x, w=w: f"{x}.{w}"), everything) for w in ("now", "old")]
            forms += [re.sub(r"(?<![\w.])r(?![\w'])", "result", f) for f in forms[2:]]
            if head == "old:":
                old, kind = next(((f, k) for k, f in enumerate(forms) if texts[file].count(f) == 1), (forms[2], None))
                if kind is None:
                    left += 1
                    print(f"respell: {path}: stands {texts[file].count(old)} times in {file}: {old}")
                out.append(f"old: {old}")
            else:
                new = forms[kind] if (kind or 0) > 2 else forms[2] if file.endswith(".antt") or kind in (2, None) else forms[1]
                texts[file] = texts[file].replace(old, new) if texts[file].count(old) == 1 else texts[file]
                out.append("new:" + (" " + new if new else ""))
        elif line.startswith("# refused at: "):
            out.append("# refused at: " + turned(line[len("# refused at: ") :], everything))
        elif line.startswith("#"):
            out.append(turned(line, {n: new for n, new in everything.items() if re.search("[A-Z]", n)} | {f"{n}": new for n, new in everything.items() if f".{n}" in line}))
        else:
            out.append(line)
    put(path, "\n".join(out))
    return left


def main():
    names = names_of()
    print(f"respell: {len(names)} names", flush=True)
    for path in sorted(glob.glob("crates/*/specs/**/*.antt", recursive=True) + glob.glob("crates/*/proofs/**/*.antt", recursive=True)):
        put(path, turned(text_of(path), names))
    for path in sorted(glob.glob("crates/*/src/**/*.rt", recursive=True)):
        put(path, clause_lines(text_of(path), names))
    left = sum(edit(path, names) for path in sorted(glob.glob("crates/*/must-fail/*.edit")))
    print(f"respell: {left} texts of edits are left")


main()
