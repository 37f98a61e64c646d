#!/usr/bin/env python3
"""Respells the repository's own definitions and lemmas: words in snake case, a dash only between two words.

usage: python3 tools/respell.py [--list]        at the top, once, right after port.py

A name in camel case that begins with a small letter is a word (`groupByte`), and becomes snake case (`group_byte`). A
dash that joins a word to plain letters (`block-is`) becomes `_`; it stays between two words (`length-slot`). Types,
functions of src/, names that Rattle makes and strings keep their spelling. `--list` prints the table and what would
fall together, and writes nothing.
"""
import os
import re
import sys

INNER = re.compile(r"^\s+(?:(?:pub|abbrev|unfoldable)\s+)*([a-z][\w'₀-₉]*-[\w'₀-₉-]*) :")
DECLARED = re.compile(r"^(?:(?:unfoldable|abbrev|private|pub|record|data|ruleset)\s+)*([^\s:({=]+)\s*(?:[({].*)?(?::|=|$)")
TOKEN = re.compile(r"[A-Za-z0-9_'₀-₉Σφ≤<≡≢-]+")
MADE = re.compile(r"^(invariant|decreases)-")
# words of std that stand first in lemmas of ours
STD = {"length", "get_or", "take", "drop", "replicate", "sets", "set", "append", "cond", "eqb", "map"}
# in one file alone, where a word that it uses gets the name of a lemma of its own
LOCAL = {
    "crates/demands/proofs/Ledgers.antt": {"no_table": "no_table_is"},
    "crates/tracer/proofs/Turning.antt": {"goes_on": "continues"},
}
# names that std has too, and imports of them stand beside ours
SHARED = {"and-true"}
# definitions whose names are plain words where a lemma's name has them
PLAIN = {"is", "first", "left", "plain", "found", "kept", "told", "ran", "inside", "over", "from"}
# where the plain rule would let two names fall together, or a word would hide another
OWN = {
    "contents-ok": "contents_is_ok",
    "end-number": "end_number_is",
    "few-groups": "groups_are_few",
    "group-formed": "group_is_formed",
    "hex-value": "hex_value_is",
    "is-device": "device_is",
    "is-error": "error_is",
    "is-run": "run_is",
    "new-group": "new_group_is",
    "output-block": "output_block_is",
    "output-word": "output_word_is",
    "output-zero": "output_of_zero",
    "project-of": "project_is",
    "read-bytes": "read_bytes_are",
    "read-on": "reads_on",
    "row-at": "row_at_is",
    "size-counted": "size_counted_is",
    "sizes-of": "sizes_are",
    "slot-getD": "slot_get_or",
    "told-number": "told_number_is",
    "value-plain": "value_plain",
    "twohand-bits": "twohand_bits_are",
    "without-script": "without_script_is",
    "zero-at": "zero_at_is",
}


def files():
    for folder, dirs, names in os.walk("crates"):
        dirs[:] = sorted(d for d in dirs if d != "out")
        for name in sorted(names):
            yield os.path.join(folder, name)


def read(path):
    with open(path, encoding="utf-8") as f:
        return f.read()


def declared():
    """The names of specs/ and proofs/, and in which files each is declared."""
    found = {}
    for path in files():
        if not path.endswith(".antt"):
            continue
        for line in read(path).splitlines():
            inner = INNER.match(line)
            if inner and not path.endswith("/Proof.antt"):
                found.setdefault(inner.group(1), set()).add(path)
            if line.startswith((" ", "--", "use", "pub use", "mod", "pub mod", "unfolding", ")", "{")):
                continue
            m = DECLARED.match(line)
            if m and re.match(r"[A-Za-z]", m.group(1)):
                found.setdefault(m.group(1), set()).add(path)
    return found


def snake(word):
    word = word.replace("getD", "get_or")
    word = re.sub(r"(?<=[a-z0-9])([A-Z])", lambda m: "_" + m.group(1).lower(), word)
    return word


def small(name):
    """Whether the name is a word and not a type: it begins with a small letter."""
    return re.match(r"[a-z]", name) is not None


def table(found):
    words = {n for n, at in found.items() if any("/specs/" in p for p in at)} | STD
    words = {snake(w) for w in words if small(w)} - PLAIN
    turned = {}
    for name in found:
        if not small(name) or MADE.match(name) or name in SHARED:
            continue
        if name in OWN:
            turned[name] = OWN[name]
            continue
        parts = [snake(p) for p in name.split("-")]
        new = parts[0]
        for i, part in enumerate(parts[1:], 1):
            rest = "_".join(parts[i:])
            new += ("-" if new in words and rest in words else "_") + part
        if new != name:
            turned[name] = new
    return turned


def fields(turned, found):
    """Fields and bound names in camel case, which no line declares."""
    for path in files():
        if path.endswith(".antt"):
            for token in TOKEN.findall(re.sub(r"--.*", "", read(path))):
                if re.match(r"[a-z][A-Za-z0-9_']*[a-z0-9][A-Z]", token) and token not in turned:
                    turned[token] = OWN.get(token, snake(token).replace("-", "_"))


def ghost_spans(text):
    """The parts of a source that speak of definitions: ghost use lines, clauses, and comments."""
    spans = []
    for m in re.finditer(r"//[^\n]*|ghost use [^;]*;|\b(?:requires|ensures|ghost invariant)\b[^{\n]*\{", text):
        if text[m.start()] == "/" or m.group(0).startswith("ghost use"):
            spans.append(m.span())
            continue
        depth, i = 1, m.end()
        while depth:
            depth += {"{": 1, "}": -1}.get(text[i], 0)
            i += 1
        spans.append((m.end(), i - 1))
    return spans


def respell(text, turned):
    return TOKEN.sub(lambda m: turned.get(m.group(0), m.group(0)), text)


def main():
    found = declared()
    turned = table(found)
    fields(turned, found)
    by_new = {}
    for old, new in turned.items():
        by_new.setdefault(new, set()).add(old)
    tokens = set()
    for path in files():
        if path.endswith(".antt"):
            tokens |= set(TOKEN.findall(re.sub(r"--.*", "", read(path))))
    together = [(n, sorted(o)) for n, o in sorted(by_new.items()) if len(o) > 1 or n in tokens]
    if "--list" in sys.argv:
        for old in sorted(turned):
            print(old, turned[old])
        print("together:")
        for new, olds in together:
            where = sorted({p for o in olds for p in found.get(o, ())})
            print(" ", new, "<-", olds, "(stands already)" if new in tokens else "", where[:4], sorted(found.get(new, ()))[:3])
        return
    for path in files():
        old = read(path) if path.endswith((".antt", ".rt")) else None
        if old is None:
            continue
        if path.endswith(".antt"):
            new = respell(respell(old, LOCAL.get(path, {})), turned)
        else:
            new, at = "", 0
            for a, b in ghost_spans(old):
                new += old[at:a] + respell(old[a:b], turned)
                at = b
            new += old[at:]
        if new != old:
            with open(path, "w", encoding="utf-8") as f:
                f.write(new)


main()
