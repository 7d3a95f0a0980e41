#!/usr/bin/env python3
"""Brings the repository's own definitions and lemmas to snake case, after port.py. Run once, at the top of the repository.

usage: spell.py [--table] [FOLDER]        --table prints old and new names and writes nothing

- A word in lower camel case becomes snake case, in .antt files and in the clauses of .rt files: `keyidOf` is `keyid_of`.
- A lemma's dash stays where it joins two names and is an underscore elsewhere: `filter-different` stays, `is-in` is `is_in`.
- Where two names would fall together, the lemma keeps its dashes, or has `_lem` after its name.
Types, modules, strings, comments' quotations and the functions of src/ keep their names.
"""
import os
import re
import sys

TOP = "."
WORD = r"[^\s(){}\[\];,.\"@«»`:|]+"
PROOF_OWN = re.compile(r"^(?:pub |abbrev )*(\S+) :(?= |$)", re.M)
DECLARED = re.compile(r"^[ \t]*(?:(?:abbrev|unfoldable|pub|mutual) )*(?:(data|record) )?([^\s(){}\[\];,.\"@:=]+)(?: (?:\{|\()[^=]*?)? ?:(?= |$)", re.M)


def files(ends):
    for folder, dirs, names in os.walk(os.path.join(TOP, "crates")):
        dirs[:] = sorted(d for d in dirs if d != "out")
        for name in sorted(names):
            if name.endswith(ends):
                yield os.path.join(folder, name)


def read(path):
    with open(path, encoding="utf-8") as f:
        return f.read()


def code_of(text, mark):
    """The text without comments and strings, places kept."""
    out, i, n = [], 0, len(text)
    while i < n:
        if text.startswith(mark, i) and (mark != "--" or i == 0 or text[i - 1] in " \n\t"):
            j = text.find("\n", i)
            j = n if j < 0 else j
            out.append(" " * (j - i))
            i = j
        elif mark == "//" and (m := re.compile(r"b?'(?:\\.|[^'\\])'").match(text, i)):
            out.append(" " * len(m[0]))
            i = m.end()
        elif text[i] == '"' or (text[i] == "b" and text.startswith('b"', i)):
            k = i + (2 if text[i] == "b" else 1)
            while k < n and text[k] != '"':
                k += 2 if text[k] == "\\" else 1
            out.append("".join("\n" if c == "\n" else " " for c in text[i : k + 1]))
            i = k + 1
        else:
            out.append(text[i])
            i += 1
    return "".join(out)


def snake(word):
    """keyidOf -> keyid_of; a type's name and a generated word stay."""
    if not re.match(r"[a-z]", word):
        return word
    return re.sub(r"([a-z0-9])([A-Z])(?=[a-z0-9]|$|')", lambda m: m[1] + "_" + m[2].lower(), word)


def main():
    global TOP
    words = [w for w in sys.argv[1:] if not w.startswith("--")]
    TOP = words[0] if words else "."
    texts = {p: read(p) for p in files((".antt", ".rt"))}
    antt = {p: code_of(t, "--") for p, t in texts.items() if p.endswith(".antt")}
    # every word that the repository's own files declare, and those that they take from the toolchain
    declared, lemmas, foreign = {}, {}, set()
    for p, t in antt.items():
        if p.endswith(("/Proof.antt", "/Answers.antt", "/Invariants.antt")):
            continue
        for kind, name in DECLARED.findall(t):
            declared.setdefault(name, set()).add(p)
        for m in re.finditer(r"^\s*(?:pub )?use (\S+?)\.\{([^}]*)\}", t, re.M):
            if not m[1].startswith("Rattle.") or m[1].startswith("Rattle.std."):
                foreign |= {w.strip().split(" as ")[0] for w in m[2].split(",")}
    # a lemma whose name is what a definition's becomes
    camel, meets = {}, {}
    for p, t in antt.items():
        for w in re.findall(WORD, t):
            if re.match(r"[a-z]", w) and re.search(r"[a-z0-9][A-Z]", w) and w not in foreign:
                camel[w] = None
    for p, t in texts.items():
        if p.endswith(".rt"):
            for w in re.findall(WORD, code_of(t, "//")):
                if re.match(r"[a-z]", w) and re.search(r"[a-z0-9][A-Z]", w):
                    camel[w] = None
    for w in camel:
        for p in declared.get(snake(w), set()):
            meets.setdefault(snake(w), set()).add(re.sub(r"^.*/", "", p)[: -len(".antt")])
    rust = set()
    for p, t in texts.items():
        if p.endswith(".rt"):
            rust |= set(re.findall(r"\bfn (\w+)", t))
    # parts of a name with a dash: joined by a dash where both sides are names
    std = set("length take drop map filter some none cond not and or append cons nil zero suc add sub mul div mod pos negsuc true false same less".split())
    plain = {snake(w) for w in declared if "-" not in w} | std | rust
    table = {}
    for w in list(camel) + [d for d in declared if "-" in d and d not in foreign]:
        parts = [snake(x) for x in re.split("-", w)]
        if any(not x for x in parts):
            continue
        units, i = [], 0
        while i < len(parts):
            j = len(parts)
            while j > i + 1 and "_".join(parts[i:j]) not in plain:
                j -= 1
            units.append("_".join(parts[i:j]))
            i = j
        new = units[0]
        for a, b in zip(units, units[1:]):
            new += ("-" if a in plain and b in plain else "_") + b
        if new != w:
            table[w] = new
    # names that fall together keep their dashes (lemmas); a word in camel case must not meet another
    everything = set(declared) | foreign | set(camel) | {w for t in antt.values() for w in re.findall(WORD, t)}
    said = []
    by_new = {}
    for w, n in table.items():
        by_new.setdefault(n, []).append(w)
    for n, ws in sorted(by_new.items()):
        if len(ws) == 1 and n not in everything:
            continue
        dashed = [w for w in ws if "-" in w]
        for w in dashed:
            keep = "-".join(snake(x) for x in w.split("-"))
            said.append(f"falls together: {w} -> {n}; kept as {keep}")
            if keep == w:
                del table[w]
            else:
                table[w] = keep
        rest = [w for w in ws if "-" not in w]
        if n in meets:
            said.append(f"falls together: the lemma {n} of {', '.join(sorted(meets[n]))} is {n}_lem")
        elif len(rest) > 1:
            said.append(f"LOOK: {rest} -> {n}, which is there already: {[p for p, t in antt.items() if re.search(r'(?<![^ (){}.,])' + re.escape(n) + r'(?![^ (){}.,])', t)][:4]}")
    if "--table" in sys.argv:
        for w, n in sorted(table.items()):
            print(w, "->", n)
        print("\n".join(said))
        return
    if not table:
        print("nothing to do")
        return
    words = re.compile(r"(?<![^\s(){}\[\];,.@«»`:|\"])(" + "|".join(sorted(map(re.escape, table), key=len, reverse=True)) + r")(?![^\s(){}\[\];,.@«»`:|\"])")
    changed = 0
    for p, t in texts.items():
        kept = code_of(t, "--" if p.endswith(".antt") else "//")
        out, last, was = [], 0, t
        mine = set(PROOF_OWN.findall(kept)) if p.endswith(("/Proof.antt", "/Answers.antt", "/Invariants.antt")) else set()
        # a name that this file takes from the toolchain is not the repository's
        for m in re.finditer(r"^\s*(?:pub |ghost )*use (\S+?)\.\{([^}]*)\}", kept, re.M):
            if not m[1].startswith("Rattle.") or m[1].startswith("Rattle.std."):
                mine |= {w.strip().split(" as ")[-1] for w in m[2].split(",")}
        # the lemmas of this file, or that it cites, whose name a definition takes
        lemmas = {n for n, ms in meets.items() if any(os.path.basename(p) == x + ".antt" for x in ms) and p.split("/")[-3:-1][-1] == "proofs"}
        for m in re.finditer(r"^\s*(?:pub |ghost )*use (\S+?)\.\{([^}]*)\}", kept, re.M):
            lemmas |= {n for n, ms in meets.items() if m[1].split(".")[-1] in ms and ".proofs." in m[1] and n in re.split(r"[\s,]+", m[2])}
        if lemmas:
            both = re.compile(r"(?<![^\s(){}\[\];,@«»`:|\"])(" + "|".join(sorted(lemmas, key=len, reverse=True)) + r")(?![^\s(){}\[\];,@«»`:|\"])")
            t = both.sub(lambda m: m[1] + "_lem", t)
            kept = code_of(t, "--" if p.endswith(".antt") else "//")
        for m in words.finditer(t):
            w = m[1]
            in_code = kept[m.start(1) : m.end(1)] == w
            quoted = t[m.start(1) - 1 : m.start(1)] == "`" and t[m.end(1) : m.end(1) + 1] == "`"
            if w in mine or not (in_code or (quoted and w in declared)):
                continue
            if not in_code and '"' in t[max(0, t.rfind("\n", 0, m.start(1))) : m.start(1)]:
                continue
            out.append(t[last : m.start(1)])
            out.append(table[w])
            last = m.end(1)
        new = "".join(out) + t[last:]
        if new != was:
            with open(p, "w", encoding="utf-8") as f:
                f.write(new)
            changed += 1
    print(f"{len(table)} names, {changed} files")
    print("\n".join(said))
    rename_crate("json", "canonical_json")


def rename_crate(old, new):
    """The kit has a library of the old name."""
    if not os.path.isdir(os.path.join(TOP, "crates", old)):
        return
    for p in files((".antt", ".rt")):
        t = read(p)
        n = re.sub(rf"\b{old}::", f"{new}::", t.replace(f"Rattle.{old}.", f"Rattle.{new}."))
        if n != t:
            with open(p, "w", encoding="utf-8") as f:
                f.write(n)
    listed = os.path.join(TOP, "crates.txt")
    t = read(listed)
    with open(listed, "w", encoding="utf-8") as f:
        f.write("".join(l if l.startswith("#") else re.sub(rf"\b{old}\b", new, l) for l in t.splitlines(True)))
    os.rename(os.path.join(TOP, "crates", old), os.path.join(TOP, "crates", new))


main()
