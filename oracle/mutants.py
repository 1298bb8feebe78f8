#!/usr/bin/env python3
"""Small changes of the definition, one at a time: which of them does no row of its tables notice?

usage: oracle/mutants.py [NAME ...]     NAME is a file of crates/definition/specs, as Sample; without one, all that define something

Each change is put into a copy of the crate `definition` and of what it uses, and proved there: some ten seconds each, hours for all. One that is proved is printed: a row is missing, or it says the same as before. Those that say the same are listed below. A change
that is refused because it makes no sense (a wrong type, a name that is not there) counts as noticed. Ends with status 1 if anything was printed.
"""
import os
import pathlib
import queue
import re
import shutil
import subprocess
import sys
import tempfile
import threading

TOP = pathlib.Path(__file__).resolve().parent.parent
SPECS = pathlib.Path("crates/definition/specs")
FILES = "Floats Slices Gains Phase Points Turns Sample Rules Run Calls Refusals".split()

# line, and what stands in its place: the same value, whatever is put in
SAME = {
    # products and sums commute
    "filter_sum n h w = complex (sum8 (prod_re h w) n) (sum8 (prod_im h w) n)": ["filter_sum n h w = complex (sum8 (prod_re w h) n) (sum8 (prod_im h w) n)"],
    # the table has (1, +0) at phase 0
    "cos_sin p = cond (eqb p 0) (record { c = one32; s = zero32 }) (interp_pair p)": ["cos_sin p = (interp_pair p)"],
    # the last case is 0 too; what these let in has been taken by a case before
    "cond (lt zero32 y.re && le zero32 y.im) (cond wide 0 1)": ["cond (lt zero32 y.re && lt zero32 y.im) (cond wide 0 1)"],
    "(cond (le y.re zero32 && lt zero32 y.im) (cond tall 2 3)": ["(cond (le y.re one32 && lt zero32 y.im) (cond tall 2 3)"],
    "(cond (lt y.re zero32 && le y.im zero32) (cond wide 4 5)": ["(cond (lt y.re zero32 && le y.im one32) (cond wide 4 5)"],
    # 2 and 64 are even
    "taps_fit n = eqb (n % 2) 1 && leb 3 n && leb n 63": [
        "taps_fit n = eqb (n % 2) 1 && leb 2 n && leb n 63",
        "taps_fit n = eqb (n % 2) 1 && leb 3 n && leb n 64",
    ],
    # test 4 has passed: the lengths are equal
    "let q = start_over (fresh_state p) (length w / 2) in": ["let q = start_over (fresh_state p) (length h / 2) in"],
    # and so has test 9
    "∷ test (eqb l.marks (l.input / 2)) (Marks (l.input / 2) l.marks)": [
        "∷ test (eqb l.marks (l.output / 2)) (Marks (l.input / 2) l.marks)",
        "∷ test (eqb l.marks (l.input / 2)) (Marks (l.output / 2) l.marks)",
    ],
    # a level's code is one of eight, and so is its place back
    "symbol_of k z = get_or grays (level_of k z.re) 0 * level_count k + get_or grays (level_of k z.im) 0": [
        "symbol_of k z = get_or grays (level_of k z.re) 1 * level_count k + get_or grays (level_of k z.im) 0",
        "symbol_of k z = get_or grays (level_of k z.re) 0 * level_count k + get_or grays (level_of k z.im) 1",
    ],
    "level_with k n = get_or (levels k) (get_or ungrays n 0) nan": ["level_with k n = get_or (levels k) (get_or ungrays n 1) nan"],
    # samples with these marks come to no decision: `passed_by` has no number for them
    "numbered Blank n = no_number": ["numbered Blank n = n"],
    "numbered Spilled n = no_number": ["numbered Spilled n = n"],
    # tests 9 and 10 have passed
    "∷ test (eqb l.numbers (l.input / 2)) Numbers": ["∷ test (eqb l.numbers (l.output / 2)) Numbers"],
}

# what a word becomes: each of a pair the other, or the first of a pair the second
EACH = """
+f -f, +d *d, /f *f, /d *d, && ||, .re .im, .c .s, .weights .window, .kp .ki, .mu_cma .mu_dd, .input .output, .z .d, .F .P, re_at im_at, lt le, leb ltb, true false,
zero32 one32, Cma Decision, take drop, Blank Spilled, Silent OffScale, wide tall, C8 S8, min max, up down, prod_re prod_im, new_re new_im, forward feedback, one64 two64, tau four64,
bw_min bw_max, nlms_eps mse_alpha, n f, w h, x y, a b, expected got"""
FIRST = """
*f +f, .marks .output, .marks .numbers, .numbers .marks, no_number n, ms ns, .count .phase, Spilled Heard, Blank Heard, Heard Blank, Silent Heard, OffScale Heard, Heard Silent, forward all_taps, two64 four64, four64 two64, mu_min tiny, max_freq one32, tiny nlms_eps, m f"""
BECOMES = {}
for a, b in (pair.split() for pair in (EACH + "," + FIRST).split(",")):
    BECOMES.setdefault(a, []).append(b)
for a, b in (pair.split() for pair in EACH.split(",")):
    BECOMES.setdefault(b, []).append(a)
# words that are left out
LEFT_OUT = {"flush", "clip", "abs", "neg", "sanitized", "narrow", "held", "not"}
# where a word that a change brings in comes from
HOME = {
    "Rattle.std.specs.Float.Ieee": {"lt", "le"},
    "Rattle.std.specs.Prelude": {"leb", "ltb", "take", "drop", "min", "max", "true", "false", "◌&&◌", "◌||◌"},
    "Rattle.types.specs.Bits": {"zero32", "one32"},
    "Rattle.definition.specs.Floats": {"◌+f◌", "◌-f◌", "◌*f◌", "tiny", "nlms_eps", "mse_alpha", "bw_min", "bw_max"},
}
WORD = re.compile(r"0x[0-9a-f_]+|\.?\w+|[-+*/][fd]\b|&&|\|\|")


def argument(line, at):
    """Begin and end of the argument at or after a place: a bracket, or a word."""
    while at < len(line) and line[at] == " ":
        at += 1
    deep = 0
    for end in range(at, len(line) + 1):
        c = line[end] if end < len(line) else " "
        if deep == 0 and end > at and (c in " )" or line[end - 1] == ")"):
            return (at, end)
        deep += (c == "(") - (c == ")")
    return None


def changes(line):
    """The line with one change, for each change."""
    start = line.find(" = ") + 3 if " = " in line else 0
    for word in WORD.finditer(line, start):
        text, (a, b) = word.group(), word.span()
        news = list(BECOMES.get(text, []))
        if text.isdigit():
            news += [str(n) for n in (int(text) + 1, int(text) - 1) if n >= 0]
        elif text.startswith("0x"):
            news.append(str(int(text.replace("_", ""), 16) + 1))
        elif text in LEFT_OUT:
            b += line[b : b + 1] == " "
            news.append("")
        for new in news:
            yield line[:a] + new + line[b:], new
    for at in (m.start() for m in re.finditer(" && ", line[start:])):
        deep, end = 0, start + at + 4
        while end < len(line) and not (deep == 0 and (line[end] == ")" or line.startswith(" && ", end))):
            deep += (line[end] == "(") - (line[end] == ")")
            end += 1
        yield line[: start + at] + line[end:], ""
    for m in re.finditer(r"\bcond ", line[start:]):
        cond = start + m.start()
        parts = [argument(line, cond + 5)]
        while parts[-1] and len(parts) < 3:
            parts.append(argument(line, parts[-1][1]))
        if parts[-1] and parts[-1][0] < len(line):
            (_, (a, b), (c, d)) = parts
            yield line[:a] + line[c:d] + " " + line[a:b] + line[d:], ""
            yield line[:cond] + line[a:b] + line[d:], ""
            yield line[:cond] + line[c:d] + line[d:], ""


def imported(text, new):
    """The file with a word that the change brings in."""
    name = f"◌{new}◌" if new and not (new[0].isalnum() or new[0] == ".") else new
    for module, names in HOME.items():
        if name in names and not re.search(r"(?m)^(use .*[{ ]|\w+ pub )" + re.escape(name) + "[,} ]", text):
            return text.replace("use ", f"use {module}.{{{name}}}\nuse ", 1)
    return text


def mutants(names):
    skipped = ("--", "use ", "pub ", "unfoldable ", "abbrev ", "unfolding ", "infix", "record {", "}")
    for name in names:
        text = (TOP / SPECS / f"{name}.antt").read_text()
        at = 0
        for number, line in enumerate(text.split("\n"), 1):
            old = line.strip()
            if old and not old.startswith(skipped) and not re.match(r"\S+ : ", old):
                seen = {line}
                for changed, new in changes(line):
                    if changed not in seen and changed.strip() not in SAME.get(old, []):
                        seen.add(changed)
                        yield name, number, old, changed.strip(), imported(text[:at] + changed + text[at + len(line) :], new)
            at += len(line) + 1


def uses():
    """The lines of crates.txt for `definition` and what it uses."""
    lines = dict(re.findall(r"(?m)^(\w+):(.*)$", (TOP / "crates.txt").read_text()))
    wanted = {"definition"}
    while more := {u for c in wanted for u in lines[c].split()} - wanted:
        wanted |= more
    return {c: lines[c] for c in lines if c in wanted}


def proved(folder):
    return subprocess.run(["rt", "check", "--jobs", "1"], cwd=folder / "crates" / "definition", capture_output=True).returncode == 0


def copied(folder):
    """The folder, with what is proved there."""
    for crate in uses():
        shutil.copytree(TOP / "crates" / crate, folder / "crates" / crate, ignore=shutil.ignore_patterns("must-fail", "out"))
    (folder / "crates.txt").write_text("".join(f"{c}:{u}\n" for c, u in uses().items()))
    return folder


def work(folder, todo, passed):
    while True:
        try:
            name, number, old, new, text = todo.get_nowait()
        except queue.Empty:
            return
        file = folder / SPECS / f"{name}.antt"
        kept = file.read_text()
        file.write_text(text)
        if proved(folder):
            passed.append(name)
            print(f"{name}.antt:{number}\n  {old}\n  {new}", flush=True)
        file.write_text(kept)


def main():
    todo, passed = queue.Queue(), []
    for mutant in mutants(sys.argv[1:] or FILES):
        todo.put(mutant)
    count = todo.qsize()
    with tempfile.TemporaryDirectory() as top:
        folders = [copied(pathlib.Path(top) / str(i)) for i in range(os.cpu_count() or 1)]
        if not all(map(proved, folders)):
            sys.exit("the definition itself is not proved")
        workers = [threading.Thread(target=work, args=(folder, todo, passed)) for folder in folders]
        for worker in workers:
            worker.start()
        for worker in workers:
            worker.join()
    print(f"{count} changes, {len(passed)} not noticed")
    sys.exit(1 if passed else 0)


main()
