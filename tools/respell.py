#!/usr/bin/env python3
"""Brings the repository's own definitions and lemmas to the spelling of today's Rattle.

usage: python3 tools/respell.py          run once, at the top of the repository, right after the kit's port.py
       python3 tools/respell.py --list   writes the table of the names, tools/respelled.tsv, from the files as port.py left them

Types are in upper camel case, all else is in snake case; a dash stays in a lemma's name where it joins the names of two definitions.
The table was made once, over every crate, so that a part of the repository is turned to the same names as the whole.
"""
import os
import re
import sys

HERE = os.path.dirname(os.path.realpath(__file__))
TABLE = os.path.join(HERE, "respelled.tsv")
KIT = "/opt/rattle/rattle"
TOKEN = re.compile(r"[^\W\d][\w'′]*(?:-[\w'′*≤<+]+)*")
SIGN = re.compile(r"^\s*((?:abbrev |unfoldable |pub )*)([^\s:(){}\[\].,;=λ→]+(?: [^\s:(){}\[\].,;=λ→]+)*) :(?:\s|$)")
KIND = re.compile(r"^\s*(?:abbrev |unfoldable |pub )*(data|record) ([^\s:(){}]+)")
# names that would fall together with one that is there already, as a function of src/
OTHERS = {
    "Mid-right": "MidAlwaysRight", "deep-attained": "deep_is_attained", "frames-fit": "frames_do_fit", "jumps-reach": "jumps_do_reach",
    "only-grows": "only_grows_holds", "words-stay": "words_stay_holds", "worked-texts": "worked_texts_hold",
    "imm-b": "imm_b_of", "imm-i": "imm_i_of", "imm-j": "imm_j_of", "imm-s": "imm_s_of", "item-kind": "kind_of_item", "names-value": "is_value_name",
    "params-table": "params_of_table", "plain-tag": "is_plain_tag", "noName": "is_no_name", "openAfter": "opened_after", "signsAfter": "signed_after",
    "namesTo": "names_in", "numsTo": "nums_in", "varsOf": "vars_in", "size-Is": "size-is",
    "deep-S": "deep-s", "exSemi": "ex_semi", "ex-semi": "ex-semi", "len-E": "len-e", "okI": "ok_item",
}
# words of std that stand in lemmas' names
WORDS = {"length", "append", "take", "drop", "set", "map", "replicate", "reverse", "sum", "concat", "zero", "suc", "add", "sub", "mul", "nil", "cons"}


def texts(root, ends=(".antt", ".rt")):
    for folder, dirs, files in os.walk(os.path.join(root, "crates")):
        dirs[:] = sorted(d for d in dirs if d != "out")
        for f in sorted(files):
            if f.endswith(ends):
                yield os.path.join(folder, f)


def read(p):
    with open(p, encoding="utf-8") as f:
        return f.read()


def code(text, path):
    """The text with its comments, and in .rt also its strings, blanked."""
    mark = "//" if path.endswith(".rt") else "--"
    out = []
    for line in text.split("\n"):
        if path.endswith(".rt"):
            line = re.sub(r'b?"(?:[^"\\]|\\.)*"', lambda m: " " * len(m[0]), line)
        i = line.find(mark)
        out.append(line if i < 0 else line[:i] + " " * (len(line) - i))
    return "\n".join(out)


def library():
    names = set()
    for folder, dirs, files in os.walk(KIT):
        dirs[:] = [d for d in dirs if d not in ("examples", "docs")]
        for f in files:
            if f.endswith(".antt"):
                for line in read(os.path.join(folder, f)).split("\n"):
                    m = SIGN.match(line)
                    if m:
                        names.update(m[2].split())
                    m = KIND.match(line)
                    if m:
                        names.add(m[2])
    return names


def snake(w):
    return re.sub(r"(?<=[a-z0-9])(?=[A-Z])", "_", w).lower()


def spelled(name, sort, defs):
    if sort == "type":
        return "".join(p[:1].upper() + p[1:] for p in name.split("-"))
    parts = name.split("-")
    out = snake(parts[0])
    for a, b in zip(parts, parts[1:]):
        joins = sort == "lemma" and a in defs and b in defs
        out += ("-" if joins else "_") + snake(b)
    return out


def make(root):
    lib = library()
    sorts, made = {}, set()
    tokens = {}
    for p in texts(root):
        t = code(read(p), p)
        tokens[p] = set(TOKEN.findall(t))
        if not p.endswith(".antt"):
            continue
        for line in t.split("\n"):
            m = KIND.match(line)
            if m:
                sorts[m[2]] = "type"
                continue
            m = SIGN.match(line)
            if not m:
                continue
            goal = re.search(r": goal\.", line)
            for n in m[2].split():
                if not TOKEN.fullmatch(n):
                    continue
                if goal:
                    made.add(n)
                elif n[0].isupper():
                    sorts[n] = "type"
                elif "abbrev" in m[1] or "unfoldable" in m[1] or line.startswith("  "):
                    sorts.setdefault(n, "def")
                else:
                    sorts.setdefault(n, "lemma")
    defs = {n for n, s in sorts.items() if s == "def"} | WORDS
    rows, said = {}, []
    everywhere = {}
    for p, ts in tokens.items():
        for t in ts:
            everywhere.setdefault(t, set()).add(p)
    taken = {}
    for n, s in sorted(sorts.items()):
        new = OTHERS.get(n) or spelled(n, s, defs)
        if "-" in n and n.replace("-", "") in sorts and n not in OTHERS and spelled(n.replace("-", ""), "def", defs) == new:
            new = snake(n)
        if new == n or n in lib or n in made:
            if new != n:
                said.append(f"kept: {n}: of the library or made by Rattle")
            continue
        clash = everywhere.get(new, set()) & everywhere.get(n, set())
        if clash or new in taken or new in ("in", "do", "let", "where", "elim", "data", "record", "rw"):
            said.append(f"clash: {n} -> {new}: {taken.get(new) or sorted(clash)[:2] or 'library'}")
            continue
        taken[new] = n
        rows[n] = new
    with open(TABLE, "w", encoding="utf-8") as f:
        f.writelines(f"{a}\t{b}\n" for a, b in sorted(rows.items()))
    print("\n".join(said))
    print(f"respell: {len(rows)} names")


def turn(root):
    rows = dict(l.rstrip("\n").split("\t") for l in open(TABLE, encoding="utf-8"))
    changed = 0
    for p in texts(root):
        old = read(p)
        blank = code(old, p)
        out, at = [], 0
        for m in TOKEN.finditer(blank):
            new = rows.get(m[0])
            if new:
                out += [old[at : m.start()], new]
                at = m.end()
        new = "".join(out) + old[at:]
        # names that comments and pages quote
        new = re.sub(r"`([^`\n]+)`", lambda m: "`" + (rows.get(m[1]) or m[1]) + "`", new)
        if new != old:
            changed += 1
            with open(p, "w", encoding="utf-8") as f:
                f.write(new)
    print(f"respell: {changed} files")


if __name__ == "__main__":
    root = os.getcwd()
    if sys.argv[1:] == ["--list"]:
        make(root)
    else:
        turn(root)
