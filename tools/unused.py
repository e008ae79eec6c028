#!/usr/bin/env python3
"""Drops from each Invariants.antt and Answers.antt the imports that nothing in the file uses, and joins a line that holds only an arrow to the next. usage: unused.py, at the top of the repository"""
import glob
import re

W = r"[^\s(){}.;,@\"«»\[\]\\]+"
for p in sorted(glob.glob("crates/*/proofs/**/*.antt", recursive=True)):
    if not p.endswith(("/Answers.antt", "/Invariants.antt")):
        continue
    t = open(p, encoding="utf-8").read()
    lines = t.split("\n")
    body = "\n".join(l for l in lines if not l.startswith("use "))
    code = re.sub(r"--[^\n]*", "", body)
    toks = set(re.findall(W, code))
    heads = {m.group(1) for m in re.finditer(r"(?<![^\s(){};,@\[\]])(%s)\." % W, code)}

    def has(name):
        if name == "[]":
            return re.search(r"\[\s*\]", code) is not None
        if "◌" in name:
            return all(q in toks or q in ("[", "]") for q in name.split("◌") if q)
        return name in toks

    out = []
    for l in lines:
        m = re.match(r"use (.*?)\.\{(.*)\}$", l)
        if m:
            keep = [i for i in re.split(r",\s*", m.group(2)) if has(i.split(" as ")[-1].strip())]
            if not keep:
                continue
            l = f"use {m.group(1)}.{{{', '.join(keep)}}}"
        else:
            m = re.match(r"use (\S+?)(?: as (\S+))?$", l)
            if m and (m.group(2) or m.group(1).split(".")[-1]) not in heads:
                continue
        out.append(l)
    u = re.sub(r"\n +→\n +(?=\S)", "\n    → ", "\n".join(out))
    u = re.sub(r"(?m) +$", "", u)
    if u != t:
        open(p, "w", encoding="utf-8").write(u)
        print(p)
