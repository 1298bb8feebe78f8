#!/usr/bin/env python3
"""Respells the repository's own definitions and lemmas: `startState` and `start-one` to `start_state` and `start_one`. Run once, at the top, after port.py.

usage: tools/respell.py            turns specs/, proofs/ and the clauses of src/
       tools/respell.py --table    prints the table, old and new, and the names that would fall together

What is renamed: what a file of specs/ or proofs/ declares, and fields of its records; not what Rattle makes, nor names of src/, strings and numbers.
A name stays in a file that imports it from the library. Where two would fall together, FIXED says what is written.
"""
import collections
import os
import re
import sys

# names that would meet another's
FIXED = {n: n.replace("-", "_") + "_lem" for n in ("calls-pass", "constants-pass", "edges-pass", "examples-pass", "refusals-pass", "samples-pass", "vectors-pass", "rows_pass", "feedback-fits", "fine-at", "freq-fits", "lane-from", "level-of", "new_by", "reset_by", "same_bits", "same-equalizer", "sample-by", "is-nan")}
FIXED.update({"byLengths": "by_lengths_of", "mu-cma": "moves_mu_cma", "mu-dd": "moves_mu_dd"})

HEAD = r"(?:(?:abbrev|unfoldable|opaque|pub|data|record|ruleset)\s+)*"
DECLARED = re.compile(r"^" + HEAD + r"(◌?[^\s:(){}=.,;◌]+◌?)\s*(?:[({][^=]*?)?:(?!=)\s")
FIELD = re.compile(r"^\s+(?:pub\s+)?([^\s:(){}]+)\s*:")
TOKEN = re.compile(r'"(?:[^"\\\n]|\\.)*"|--(?=\s)[^\n]*|[^\s(){}.;,@"«»\[\]⟨⟩|`]+|.', re.S)
WORD = re.compile(r"[^\s(){}.;,@\"«»\[\]⟨⟩|`:]+")
USE = re.compile(r"^\s*(?:pub )?(?:ghost )?use ([\w.·'+-]+?)(?:\.\{([^}]*)\})?(?: as (\S+?))?;?\s*$", re.M)
CLAUSE = re.compile(r"(?:\b(?:requires|ensures)\b\*?\s*(?:\w+\s*)?\{|\bghost\b\s*(?:\w+\s*(?::\s*)?)?\{|\bprove!\()")


def files(root):
    for folder, dirs, names in os.walk(os.path.join(root, "crates")):
        dirs[:] = sorted(d for d in dirs if d != "out")
        for n in sorted(names):
            if n.endswith((".antt", ".rt")):
                yield os.path.join(folder, n)


def snake(n):
    if n in FIXED:
        return FIXED[n]
    if re.match(r"^[A-Z]", n) and "-" not in n:
        return n
    n = n.replace("-", "_")
    n = re.sub(r"([a-z0-9])([A-Z])", lambda m: m[1] + "_" + m[2].lower(), n)
    n = re.sub(r"^([A-Z])", lambda m: m[1].lower(), n)
    return n.replace("′", "'")


def table(root):
    """Old names to new ones, and where each is declared."""
    at = collections.defaultdict(set)
    fields = set()
    for p in files(root):
        if not p.endswith(".antt"):
            continue
        walk = os.path.basename(p) == "Proof.antt"
        inside = False
        for l in open(p, encoding="utf-8"):
            if l.startswith(("record", "pub record", "data", "pub data")):
                inside = True
            elif l.strip() and l[0] not in " -":
                inside = False
            if inside and (m := FIELD.match(l)):
                fields.add(m[1])
                at[m[1]].add(p)
            m = DECLARED.match(l)
            if m and not l.startswith(("use ", "pub use", "module", "mod ", "pub mod ", "infix")):
                # a walk declares a proof for each goal under the goal's name: those names are Rattle's
                if walk and re.search(r":\s*tie\.|: \{M : Type 1\} → statement", l):
                    continue
                at[m[1]].add(p)
    new = {}
    for n in at:
        s = snake(n)
        if s != n and not n.startswith("◌") and re.match(r"[A-Za-z]", n):
            new[n] = s
    return new, at, fields


def imported(text):
    """What a file imports from elsewhere than the repository: stays in it. And the names of its own modules."""
    out, heads = set(), set()
    for m in USE.finditer(text):
        path, names, alias = m[1], m[2], m[3]
        own = path.startswith("Rattle.") and path.split(".")[1] in OWN and not re.search(r"\.(Goals|Given|Tie|Lts|Statement)\b", path)
        if names is not None and not own:
            for it in names.split(","):
                out |= {w for w in it.split() if w != "as"}
        if names is None and own and alias:
            heads.add(alias)
    return out, heads


def turned(text, new, fields, keep, heads):
    out, before = [], []
    last, last2 = "", ""
    for m in TOKEN.finditer(text):
        t = m[0]
        if t.startswith("--"):
            t = re.sub(r"`([^`]*)`", lambda k: "`" + WORD.sub(lambda w: new.get(w[0], w[0]) if w[0] not in keep else w[0], k[1]) + "`", t)
        elif t in new and t not in keep:
            if last == ".":
                if last2 in heads or t in fields:
                    t = new[t]
            else:
                t = new[t]
        out.append(t)
        last, last2 = m[0], last
    text = "".join(out)
    return re.sub(r"(?<![\w'-])([A-Za-z]\w*) as «?\1»?(?![\w'-])", r"\1", text)


def clauses(text):
    """The spans of a source file in which clauses stand."""
    at = []
    for m in CLAUSE.finditer(text):
        close = {"{": "}", "(": ")"}[m[0][-1]]
        open_, deep, i = m[0][-1], 1, m.end()
        while i < len(text) and deep:
            deep += (text[i] == open_) - (text[i] == close)
            i += 1
        at.append((m.end(), i - 1))
    for m in re.finditer(r"ghost use [^;]*;", text):
        at.append((m.start(), m.end()))
    return sorted(at)


def main(argv):
    global OWN
    root = "."
    OWN = set(os.listdir(os.path.join(root, "crates")))
    new, at, fields = table(root)
    if argv == ["--table"]:
        back = collections.defaultdict(set)
        for n in at:
            back[new.get(n, n)].add(n)
        for o, n in sorted(new.items()):
            print(f"{o}\t{n}")
        for n, os_ in sorted(back.items()):
            if len(os_) > 1:
                print("together:", n, sorted(os_), {os.path.relpath(p) for o in os_ for p in at[o]})
        for p in files(root):
            if p.endswith(".rt"):
                text = open(p, encoding="utf-8").read()
                spans = clauses(text)
                said = {w for a, b in spans for w in WORD.findall(text[a:b]) if w in new}
                code, i = "", 0
                for a, b in spans:
                    code += text[i:a] + " "
                    i = max(b, i)
                code = re.sub(r"//[^\n]*", "", code + text[i:])
                for w in sorted(said):
                    if re.search(r"\b" + re.escape(new[w]) + r"\b", code):
                        print("code:", p, w, "->", new[w], [l.strip() for l in code.splitlines() if re.search(r"\b" + re.escape(new[w]) + r"\b", l)][:3])
            else:
                text = open(p, encoding="utf-8").read()
                keep, _ = imported(text)
                words = set(WORD.findall(re.sub(r"--\s[^\n]*", "", text)))
                for w in words:
                    if w in new and w not in keep and (new[w] in keep or (new[w] in words and new[w] not in at)):
                        print("met:", p, w, "->", new[w])
        return 0
    n = 0
    for p in files(root):
        text = open(p, encoding="utf-8").read()
        keep, heads = imported(text)
        if p.endswith(".antt"):
            after = turned(text, new, fields, keep, heads)
        else:
            after, i = "", 0
            for a, b in clauses(text):
                if a < i:
                    continue
                after += text[i:a] + turned(text[a:b], new, fields, keep, heads)
                i = b
            after += text[i:]
        if after != text:
            n += 1
            with open(p, "w", encoding="utf-8") as f:
                f.write(after)
    print(f"respell: {len(new)} names, {n} files")
    return 0


if __name__ == "__main__":
    raise SystemExit(main(sys.argv[1:]))
