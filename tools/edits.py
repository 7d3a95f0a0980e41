#!/usr/bin/env python3
"""Brings the texts of must-fail/*.edit and wrong/*.edit to the spelling of port.py and spell.py: words in snake case, projections tight.

usage: edits.py [FOLDER]       It prints each edit whose old text does not stand once in its file: that one is mended by hand.
"""
import glob
import os
import re
import sys

TOP = sys.argv[1] if len(sys.argv) > 1 else "."


def snake(m):
    return re.sub(r"([a-z0-9])([A-Z])(?=[a-z0-9]|$|')", lambda k: k[1] + "_" + k[2].lower(), m[0])


def turn(text):
    strings = []

    def keep(m):
        strings.append(m[0])
        return f"\0{len(strings) - 1}\0"

    t = re.sub(r'"(?:[^"\\]|\\.)*"', keep, text)
    t = re.sub(r"(?<![\w.])[a-z][A-Za-z0-9]*[A-Z]\w*", snake, t)
    t = re.sub(r"(?<= \.)[a-z][A-Za-z0-9]*[A-Z]\w*", snake, t)
    # (x .f .g) and x .f are x.f.g and x.f
    t = re.sub(r"\((\w+)((?: \.[\w-]+)+)\)", lambda m: m[1] + m[2].replace(" ", ""), t)
    t = re.sub(r"(?<=[\w)]) \.(?=[a-z0-9])", ".", t)
    return re.sub("\0(\\d+)\0", lambda m: strings[int(m[1])], t)


def main():
    left = 0
    for p in sorted(glob.glob(os.path.join(TOP, "crates/*/must-fail/*.edit")) + glob.glob(os.path.join(TOP, "crates/*/wrong/*.edit"))):
        lines = open(p, encoding="utf-8").read().split("\n")
        out, file, olds = [], None, []
        for ln in lines:
            m = re.match(r"(old|new): (.*)$", ln, re.S)
            if ln.startswith("file: "):
                file = ln[6:]
            if m:
                ln = f"{m[1]}: {turn(m[2])}" if file and file.endswith(".antt") else ln
            out.append(ln)
        text = "\n".join(out)
        if out != lines:
            open(p, "w", encoding="utf-8").write(text)
        target = os.path.join(TOP, "crates", p.split("/crates/")[1].split("/")[0] if "/crates/" in p else p.split("/")[1], file)
        body = open(target, encoding="utf-8").read() if os.path.exists(target) else ""
        olds = [ln[5:] for ln in out if ln.startswith("old: ")]
        if "/wrong/" in p:
            olds = ["\n".join(olds)]
        for o in olds:
            if body.count(o) != 1:
                left += 1
                print(f"left: {p}: {body.count(o)} times in {file}: {o}")
    print(f"{left} left")


main()
