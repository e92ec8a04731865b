#!/usr/bin/env python3
"""Brings the repository's own definitions and lemmas to snake case, after port.py has run.

usage: python3 tools/respell.py            at the top, once: renames in crates/ (.antt, clauses of .rt) and in the pages
       python3 tools/respell.py --list     prints the renamings and changes nothing

A name that is declared in specs/ or proofs/ as wordAt or word-at becomes word_at. Where two names fall together, the
definition keeps the plain one and the lemma gets the ending _lem. Functions of src/, exported C names and strings keep
their names: only names declared in .antt files are turned, and in .rt files only in clauses, ghost items and comments.
"""
import collections
import os
import re
import sys

DECLARES = re.compile(r"\s*(?:pub |abbrev |unfoldable |data |record )*([^\s(){}:.]+)\s+:\s+(.*)")
TOKEN = re.compile(r"[^\s(){}\[\];,.|`\"]+")
# What port.py had turned already, since a library spells these so: old names that only the pages still have.
PAGES = """above-from above-join above-zero add-free add-goes add-left add-words aligned-next all-append all-drop all-go all-in all-of
all-placed all-replicate all-runs all-take all-three andThen answer-typed any-append any-next any-same any-swap apart-by as-before at-all
at-drop at-first at-front at-here at-in at-listed at-most at-none at-other at-position bare-parts base-goes base-same baseAt baseOf
begun-first both-halves both-hold both-right by-answer by-code by-tests by-value by-word bytes-drop bytesAt bytesOf calls-are chunk-bytes
chunk-count chunk-end chunk-front chunk-next chunk-of chunkBytes chunks-fit chunks-long chunks-of chunksOf clear-spec copied-more count-fits
counted-back counted-of creditAt digits-same drop-past each-back each-fits elem-at end-is end-short endedAs entries-next entry-done entry-here
entry-length entry-of finish-spec first-above fit-next fits-after fits-in fits-word fixed-back flagsOf follows-on found-at frame-back frame-is
frameOf front-of full-by full-is gap-here gap-step gap-within go-same goes-left goes-none goes-on goes-one goes-parts header-of held-by here-of
high-half highOf in-bytes in-end in-order in-parts in-place in-whole in-without inserted-same is-free isRefused join-first join-more joined-at
joined-length joined-same joined-snoc kind-fits kindAt last-fits last-within leave-spec length-from length-none length-pairs length-part
length-runs length-taken length-without lengthAt lent-back lent-fits lent-is line-of line-on linesOf low-half low-parts low-word lowOf
minus-one moved-all moved-none mul-words next-fits next-of no-chunks no-digit no-flag no-kind no-length no-zero none-at-zero none-here none-in
none-left none-of none-over none-read none-written not-full not-in not-there number-at number-behind number-fits number-is number-of numberIn
one-by-one one-kept one-less one-line one-more one-of one-on only-zero open-next other-entries other-last other-place other-word others-same
outOf part-at part-bytes part-length part-none part-of part-placed partOf partsIn partsOf passed-is passed-over place-down place-here place-in
place-none placed-less places-of placesOf read-length read-next read-number readEntry readStep reads-before reads-bytes reads-fit reads-held
reads-more reads-none reads-of readsOf refused-none rest-all rest-some run-is run-more running-more same-answer same-count same-ended same-kind
same-length same-number same-rest same-word search-is set-apart set-next shape-is shapeOf size-back size-is sizeOf so-far some-first some-words
sorted-rises start-fits start-spec step-of stored-next stored-one sums-next table-is table-none take-done take-long take-next take-past
takes-all takes-none times-more to-is too-many total-first turn-in turn-stopped valueOf walk-start walking-start within-word without-end
word-back word-first word-fits word-room wordBytes wordOf words-append words-are words-back writes-are writes-bytes writes-chunk writes-end
writes-found writes-more writes-start writesAt written-is written-read writtenBy zero-is zero-more zero-number""".split()


def snake(name):
    name = re.sub(r"([a-z0-9])([A-Z])", lambda m: m.group(1) + "_" + m.group(2).lower(), name)
    return name.replace("-", "_").replace("\u2032", "'")


def files(ending):
    for folder, dirs, names in os.walk("crates"):
        dirs[:] = sorted(d for d in dirs if d != "out")
        for n in sorted(names):
            if n.endswith(ending):
                yield os.path.join(folder, n)


def read(path):
    with open(path, encoding="utf-8") as f:
        return f.read()


def library_names():
    """The names that each file takes from a library of the kit: they are spelled as the library has them."""
    own = set(os.listdir("crates"))
    found = collections.defaultdict(set)
    for p in list(files(".antt")) + list(files(".rt")):
        for m in re.finditer(r"use ([\w.]+)\.\{([^}]*)\}", read(p)):
            if not (m.group(1).startswith("Rattle.") and m.group(1).split(".")[1] in own):
                found[p] |= {n.split(" as ")[-1].strip() for n in m.group(2).split(",")}
    return found


def renamings():
    where = collections.defaultdict(set)
    for p in files(".antt"):
        for line in read(p).splitlines():
            m = DECLARES.match(line)
            if m and not line.lstrip().startswith("--") and not m.group(2).startswith("tie."):
                where[m.group(1)].add(p)
    def is_word(n):
        return n[0].islower() or n[0] == "+"
    by_new = collections.defaultdict(list)
    for n in where:
        if is_word(n):
            by_new[snake(n)].append(n)
    to = {}
    for new, olds in by_new.items():
        if len(olds) > 1:
            lemmas = [n for n in olds if all("/proofs/" in p for p in where[n])]
            kept = [n for n in olds if n not in lemmas]
            if len(kept) > 1 or len(lemmas) > 1:
                # both are definitions, or both lemmas: the camel case one is the definition
                kept = [n for n in olds if re.search("[A-Z]", n)]
                lemmas = [n for n in olds if n not in kept]
            if len(kept) != 1 or len(lemmas) != 1:
                sys.exit(f"respell: {olds} fall together: {[sorted(where[n]) for n in olds]}")
            to[kept[0]] = new
            to[lemmas[0]] = new + "_lem"
        else:
            to[olds[0]] = new
    for n, new in to.items():
        if new.endswith("_lem") and new in where:
            sys.exit(f"respell: {new} is taken")
    return {n: new for n, new in to.items() if n != new}, where


def turned(text, to):
    """A part of a path may be a function of src/ or a step of its proof: there no ending is added."""

    def one(m):
        n = m.group(0)
        new = to.get(n, n)
        if new.endswith("_lem") and new != n and (text[m.start() - 1 : m.start()] == "." or text[m.end() : m.end() + 1] == "."):
            return snake(n)
        return new

    return TOKEN.sub(one, text)


def turn_rt(text, to):
    """Clauses, ghost items and comments; code and strings stay."""
    out, depth = [], 0
    for line in text.split("\n"):
        head = line.strip()
        if depth or re.match(r"(pub )?ghost\b|(requires|ensures|also_owns|also_shares|invariant)\b", head):
            code = head
            out.append(turned(line, to))
            depth += code.count("{") - code.count("}")
            depth = max(depth, 0)
        elif head.startswith("//"):
            out.append(turned(line, to))
        else:
            out.append(line)
    return "\n".join(out)


def pages():
    for p in ["README.md", "CONTRIBUTING.md", "SECURITY.md", "CHANGELOG.md", "docs/CLAIMS.md", "docs/DECISIONS.md", "docs/INTEGRATING.md", "docs/PERFORMANCE.md"]:
        if os.path.exists(p):
            yield p
    for n in sorted(os.listdir("docs/orders")):
        yield os.path.join("docs/orders", n)


def main():
    to, where = renamings()
    if "--list" in sys.argv[1:]:
        for n in sorted(to):
            print(n, to[n])
        return
    library = library_names()
    for p in files(".antt"):
        text = read(p)
        own = {n: new for n, new in to.items() if n not in library[p]}
        new = turned(text, own)
        if new != text:
            with open(p, "w", encoding="utf-8") as f:
                f.write(new)
    for p in files(".rt"):
        text = read(p)
        new = turn_rt(text, {n: x for n, x in to.items() if n not in library[p]})
        if new != text:
            with open(p, "w", encoding="utf-8") as f:
                f.write(new)
    both = dict(to)
    for n in PAGES:
        if n not in both:
            both[n] = to.get(snake(n), snake(n))
    for p in pages():
        text = read(p)
        # only what is marked as a name
        new = re.sub(r"`[^`\n]*`", lambda m: turned(m.group(0), both), text)
        if new != text:
            with open(p, "w", encoding="utf-8") as f:
                f.write(new)


main()
