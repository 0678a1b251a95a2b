#!/usr/bin/env python3
"""Spells the words of specs/, proofs/ and clauses in snake case: `wideOf` is `wide_of`, where port.py left it.

usage: python3 tools/snake_names.py      at the top of the repository, once, after port.py

A word is a name that begins with a small letter. Types, facts, modules and the variants of Rust keep their capitals, and strings, code and the file names stay. Where a name would fall together with another of the same file, it says so and writes nothing.
"""
import os
import re
import sys

WORD = re.compile(r"[^\s(){}\[\].,;:|\"«»`]+")
CAMEL = re.compile(r"(?:(?<=^)|(?<=-))[a-z][a-z0-9]*(?:[A-Z][A-Za-z0-9]*)+'*(?=$|-)")
# Constructors of types that only specs/ has, and the two constants of the Rust that a definition names.
BY_HAND = {"Got": "got", "Bad": "bad", "Lift": "lift", "LiftRecord": "lift_record", "X87-ONE": "x87_one", "X87-ZERO": "x87_zero"}
# Where a name would fall together with another of its file: the lemma, by its file, gets another name.
IN_FILE = {
    "crates/agreement/specs/Fine/Valid.antt": {"all_sound": "all_sound_lem"},
    "crates/agreement/specs/Fits/Classified.antt": {"plain_fits": "plain_fits_lem"},
    "crates/agreement/specs/Handed/Carries.antt": {"no_text": "no_text_fits", "got": "got_lem", "bad": "bad_lem"},
    "crates/listing/specs/Enough.antt": {"got": "got_lem"},
    "crates/evaluator/specs/Order.antt": {"is_nan": "of_nan", "is-inf": "of_inf", "is-fin": "of_fin"},
    "crates/smtcomplete/specs/Floats.antt": {"term_of": "term_of_lem", "some_word": "some_word_lem"},
    "crates/smtcomplete/specs/Definable.antt": {"term_of": "term_of_lem"},
    "crates/smtcomplete/specs/Sources.antt": {"some_word": "some_word_lem"},
    "crates/smtcomplete/specs/Kinds.antt": {"some_of": "some_of_lem"},
    "crates/smtlive/specs/Sources.antt": {"some_word": "some_word_lem", "some_of": "some_of_lem"},
    "crates/smtlive/specs/Terms.antt": {"some_word": "some_word_lem"},
}
ONLY = {"Got": "Reading", "Bad": "Reading", "Lift": "Call", "LiftRecord": "Call"}


def snake(m):
    w = m.group(0)
    w = re.sub(r"NaN", "Nan", w)
    w = re.sub(r"([a-z0-9])([A-Z])", r"\1_\2", w)
    return w.lower()


def turned(word):
    if word.startswith("◌") or any(s in word for s in "◌λ→"):
        return word
    return CAMEL.sub(snake, word)


def words_of(text):
    """The text in turn as a piece of code, or as a string that stays."""
    return re.split(r'("(?:[^"\\\n]|\\.)*")', text)


def turn(text, seen):
    out = []
    for i, piece in enumerate(words_of(text)):
        if i % 2 == 0:
            def one(m):
                w = m.group(0)
                t = turned(w)
                if t != w:
                    seen.setdefault(t, set()).add(w)
                return t
            piece = WORD.sub(one, piece)
        out.append(piece)
    return "".join(out)


def files(root):
    for folder, dirs, names in os.walk(root):
        dirs[:] = sorted(d for d in dirs if d not in ("out", ".git", "target"))
        for n in sorted(names):
            yield os.path.join(folder, n)


def clauses(text):
    """Of a .rt file the lines of clauses, of ghost imports and of comments."""
    out, depth, inside = [], 0, False
    for line in text.split("\n"):
        ghost = re.match(r"\s*(?:pub )?ghost ", line)
        starts = re.match(r"\s*(?:requires|ensures)\b", line)
        comment = re.match(r"\s*//", line)
        if starts:
            inside = True
        take = bool(ghost or inside or comment)
        if inside:
            depth += line.count("{") - line.count("}")
            if depth <= 0:
                inside, depth = False, 0
        out.append((line, take))
    return out


def main():
    turned_files, falls = {}, []
    for p in files("crates"):
        if p.endswith(".antt") or p.endswith(".rt"):
            with open(p, encoding="utf-8") as f:
                text = f.read()
            seen = {}
            for a, b in IN_FILE.get(p, {}).items():
                text = re.sub(r"(?<![\w.'-])" + re.escape(a) + r"(?![\w'-])", b, text)
            if p.endswith(".antt"):
                new = turn(text, seen)
            else:
                new = "\n".join(turn(l, seen) if take else l for l, take in clauses(text))
            new = by_hand(p, new)
            old_words = {w for i, piece in enumerate(words_of(text)) if i % 2 == 0 for w in WORD.findall(piece)}
            for t, froms in seen.items() if p.endswith(".antt") and not p.endswith("/Proof.antt") else ():
                if len(froms) > 1 or t in old_words:
                    falls.append(f"{p}: {sorted(froms)} and {t}")
            if new != open(p, encoding="utf-8").read():
                turned_files[p] = new
    if falls:
        print("names that fall together:\n" + "\n".join(falls))
        return 1
    for p, text in turned_files.items():
        with open(p, "w", encoding="utf-8") as f:
            f.write(text)
    print(f"{len(turned_files)} files")
    return 0


def by_hand(p, text):
    for a, b in BY_HAND.items():
        if a in text and (a not in ONLY or p.endswith(".antt") and p.split("/")[1] in ("records", "agreement", "reader", "export", "listing")):
            text = re.sub(r"(?<![\w.'-])" + re.escape(a) + r"(?![\w'-])", b, text)
    return text


if __name__ == "__main__":
    sys.exit(main())
