#!/usr/bin/env python3
"""Spells this repository's own definitions and lemmas as Rattle's library spells its own: words in snake case, types, facts and modules in
upper camel case, and a dash only between two names. Run once, at the top, after the toolchain's port.py; `--list` prints the names alone.

Left as they are: functions of src/, exported names, strings, labels and goals (Rattle makes those from the source), and prose with dashes."""

import os
import re
import sys

ROOT = os.path.dirname(os.path.dirname(os.path.realpath(__file__)))
# new spellings that say more than their pieces, or keep apart what would fall together
GIVEN = {
    "Least-above": "IsLeastAbove",
    "content-of": "content_of_record",
    "cutOff": "cut_off_world",
    "cut-store": "cut_in_store",
    "keyIn": "entry_key",
    "leaf-of": "leaf_on_way",
    "open-status": "open_status_is",
    "sixth-key": "sixth_key_is",
    "isLt": "is_less",
    "None-is": "none_is",
    "divided-put": "put_divided",
    "step-or": "step_else",
    "steps-below": "steps_under",
    "none-lost": "none_is_lost",
    "pair-cost": "pair_cost",
    "kid-cost": "kid_cost",
    "keyRoom": "key_room",
    "isFull": "is_full",
    "isBound": "is_bound",
}
# a lemma of the library, which one file states again
LEFT = {"leb-true"}
# the toolchain has a library of this name
CRATES = {"log": "wal"}
DECLARED = re.compile(r"^(?P<in>\s*)(?:\(\s*)?(?:(?:abbrev|unfoldable|pub|data|record|instance) )*(?P<names>[A-Za-z][\w'-]*(?: [A-Za-z][\w'-]*)*)(?P<rest> (?:[({].*)?:.*)$")
TOKEN = re.compile(r"(?<![\w'\-])[A-Za-z][\w']*(?:-[\w'<>=≤≡&|+*^%/∷ℕ]+)*")
KNOWN = set("length take drop append replicate sum map suc pred add sub mul div mod pow xor lt le eq all any in get set elim cond not and or omega".split())


def files(ends):
    for folder, dirs, names in os.walk(os.path.join(ROOT, "crates")):
        dirs[:] = sorted(d for d in dirs if d not in ("out", "target"))
        for n in sorted(names):
            if n.endswith(ends):
                yield os.path.join(folder, n)


def read(p):
    with open(p, encoding="utf-8") as f:
        return f.read()


def own(p):
    """A file of definitions or lemmas: not one that answers the goals of a function."""
    rel = os.path.relpath(p, ROOT).split(os.sep)
    return len(rel) == 4 and rel[2] in ("specs", "proofs")


def declared():
    """Each name declared in specs/ and proofs/, and whether it is a type or a fact; and the words: definitions, fields and constructors."""
    kinds, words = {}, set()
    for p in files(".antt"):
        if not own(p):
            continue
        lines = read(p).split("\n")
        block = None
        for i, line in enumerate(lines):
            depth = len(line) - len(line.lstrip())
            if re.match(r"\s*(pub )?(record|data) ", line):
                block = depth
            elif line.strip() and block is not None and depth <= block and not line.lstrip().startswith("--"):
                block = None
            if line.lstrip().startswith(("--", "use ", "module ", "let ", "rw ", "unfolding ")):
                continue
            m = DECLARED.match(line)
            if not m:
                continue
            names = m["names"].split()
            if any(n in ("where", "let", "in", "of", "case") for n in names):
                continue
            text = m["rest"]
            j = i + 1
            while j < len(lines) and lines[j].lstrip().startswith(("→", "(")) and lines[j].startswith(m["in"] + " "):
                text += " " + lines[j].strip()
                j += 1
            fact = bool(re.search(r"(?:→|: ?|:)\s*Type \d+( where)?\s*$", text))
            for n in names:
                kinds[n] = kinds.get(n, False) or fact
                if not fact and (re.match(r"\s*(pub )?(abbrev|unfoldable) ", line) or block is not None and depth > block):
                    words.add(n)
    return kinds, words


def humps(n):
    return re.sub(r"(?<=[a-z0-9])(?=[A-Z])", "_", n)


def upper(n):
    return "".join(w[:1].upper() + w[1:] for w in re.split(r"[-_]", humps(n)))


def snake(n):
    kept = n[:1].isupper()
    s = humps(n)
    if kept:
        first, *rest = re.split(r"(?=[_-])", s, maxsplit=1)
        return first + "".join(r.lower() for r in rest)
    return s.lower()


def dashes(n, names):
    """A dash joins two names; where a piece is a plain word, all are joined by underscores."""
    parts = n.split("-")
    return ("-" if all(p in names for p in parts) and upper(n) not in names else "_").join(parts)


def spellings():
    kinds, plain = declared()
    words = {snake(n) for n, fact in kinds.items() if "-" not in n} | KNOWN | {upper(n) for n, fact in kinds.items() if fact}
    new = {}
    for n, fact in kinds.items():
        if n in GIVEN:
            s = GIVEN[n]
        elif fact and ("-" in n or not n[:1].isupper()):
            s = upper(n)
        elif "-" in n and n in plain:
            s = snake(n.replace("-", "_"))
        elif "-" in n:
            s = dashes("-".join(snake(p) if not p[:1].isupper() else p for p in n.split("-")), words)
        elif n[:1].isupper():
            s = n
        else:
            s = snake(n)
        if s != n:
            new[n] = s
    return kinds, plain, {a: b for a, b in (GIVEN | new).items() if a not in LEFT}


def crates():
    """The crates under their new names: folders, the list, paths and uses."""
    inside = os.path.join(ROOT, "crates")
    listed = os.path.join(ROOT, "crates.txt")
    for a, b in CRATES.items():
        if os.path.isdir(os.path.join(inside, a)):
            os.rename(os.path.join(inside, a), os.path.join(inside, b))
        whole = re.compile(rf"(?<=Rattle\.){a}(?=\.)")
        use = re.compile(rf"(?m)^(\s*use ){a}(?=::)")
        for p in files((".antt", ".rt", ".edit")):
            t = read(p)
            u = use.sub(rf"\g<1>{b}", whole.sub(b, t))
            if u != t:
                with open(p, "w", encoding="utf-8") as f:
                    f.write(u)
        t = read(listed)
        with open(listed, "w", encoding="utf-8") as f:
            f.write(re.sub(rf"(?m)^((?!#).*)$", lambda m: re.sub(rf"(?<![\w]){a}(?![\w])", b, m[0]), t))


def turned(text, new, rt, mine, plain):
    """The text with the new spellings; dashed names only in code, and only where they are not a part of a path."""

    def one(m):
        t = m[0]
        before = text[m.start() - 1:m.start()]
        if t in new and t not in mine:
            if "-" in t and before == "." and not t[:1].isupper() and t not in plain:
                return t
            return new[t]
        if "-" in t:
            return "-".join(new.get(x, x) if (re.search(r"[a-z][A-Z]", x) and not rt) else x for x in t.split("-"))
        return t

    out = []
    text_all = text
    for line in text_all.split("\n"):
        code, mark, note = line, "", ""
        at = re.search(r"(?:^|\s)(?:--|//) ", line) if not rt else re.search(r"(?:^|\s)// ", line)
        if at:
            code, note = line[:at.start()], line[at.start():]
        text = code
        pieces = re.split(r'("(?:[^"\\]|\\.)*")', code) if rt else [code]
        done = ""
        for piece in pieces:
            text = piece
            done += piece if piece.startswith('"') and rt else TOKEN.sub(one, piece)
        text = note
        note = TOKEN.sub(lambda m: new[m[0]] if m[0] in new and m[0] not in mine and re.search(r"[a-z][A-Z]", m[0]) else m[0], note)
        out.append(done + note)
    return "\n".join(out)


def main(argv):
    kinds, plain, new = spellings()
    back = {}
    for a, b in new.items():
        back.setdefault(b, []).append(a)
    for b, olds in sorted(back.items()):
        if len(olds) > 1 or b in kinds:
            print("together:", b, "from", *olds, "(and a name that stands)" if b in kinds else "")
    if "--list" in argv:
        for a in sorted(new):
            print(a, "->", new[a])
        return 0
    for p in files((".antt", ".rt", ".edit")):
        text = read(p)
        rt = p.endswith((".rt", ".edit"))
        mine = set() if own(p) or rt else set(re.findall(r"(?m)^(?:pub |abbrev )*([\w'-]+) :", text))
        there = set(TOKEN.findall(text))
        for a in sorted(there & set(new)):
            if new[a] in there and a not in mine:
                print(f"meets: {os.path.relpath(p, ROOT)}: {a} -> {new[a]}")
        if "--dry" in argv:
            continue
        t = turned(text, new, rt, mine, plain)
        if t != text:
            with open(p, "w", encoding="utf-8") as f:
                f.write(t)
    if "--dry" not in argv:
        crates()
    return 0


if __name__ == "__main__":
    raise SystemExit(main(sys.argv[1:]))
