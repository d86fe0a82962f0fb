#!/usr/bin/env python3
"""Lists the places of the design pass in crates/*/src, by point, with a count for each: run it at the top of the repository.

    tools/places.py            the counts
    tools/places.py -v         every place
    tools/places.py -v COMMIT  of that commit

1  a flag or a verdict in a variable, a bool parameter, a number that stands for a refusal, an enum of the shape of Option or Result
2  functions, methods and types that are the same but for names, types and numbers
3  loops over a range of numbers, and `while` and `loop`
4  equality, order, conversion and printing by hand
5  facts that the contracts of three or more functions require or ensure, and parameters that three or more functions take together
6  arrays in fields, memory with a place beside it, parallel lists
7  tables of functions, a switch on a step
"""
import re, subprocess, sys
from collections import defaultdict
from pathlib import Path


def sources(commit):
    if commit:
        names = subprocess.check_output(["git", "ls-tree", "-r", "--name-only", commit, "crates"], text=True).split()
        for name in names:
            if re.fullmatch(r"crates/\w+/src/.*\.rt", name):
                yield name, subprocess.check_output(["git", "show", f"{commit}:{name}"], text=True)
    else:
        for path in sorted(Path("crates").glob("*/src/**/*.rt")):
            yield str(path), path.read_text()


FN = re.compile(r"^( *)(pub(?:\(crate\))? )?(?:const )?fn (\w+)", re.M)


def functions(text):
    """name, first line, head (signature and clauses), body"""
    for m in FN.finditer(text):
        indent = m.group(1)
        line = text.count("\n", 0, m.start()) + 1
        rest = text[m.start():]
        end = re.search(rf"^{indent}\}}\s*$|^{indent}\{{\}}\s*$", rest, re.M)
        semi = re.search(r";\s*$", rest, re.M)
        if semi and (not end or semi.end() < end.start()) and "\n" + indent + "{" not in rest[:semi.end()] and "{\n" not in rest[:semi.end()]:
            yield m.group(3), line, rest[:semi.end()], ""
            continue
        if not end:
            continue
        whole = rest[:end.end()]
        one = re.match(rf"[^\n]*\{{\n", whole)
        own = re.search(rf"^{indent}\{{", whole, re.M)
        cut = own.start() if own else (one.end() if one else len(whole))
        yield m.group(3), line, whole[:cut], whole[cut:]


TOKEN = re.compile(r"\"[^\"]*\"|b?'[^']*'|\w+|[^\s\w]")
WORDS = set("let mut if else match for in while loop return break continue as fn self Self true false Some None Ok Err".split())


def shape(text):
    text = re.sub(r"//[^\n]*", "", text)
    return tuple(t if t in WORDS or not re.match(r"[\w\"']", t) else "_" for t in TOKEN.findall(text))


def places(commit):
    found = defaultdict(list)
    shapes, facts, params = defaultdict(list), defaultdict(set), defaultdict(set)
    for name, text in sources(commit):
        crate = name.split("/")[1]
        for n, l in enumerate(text.split("\n"), 1):
            at = f"{name}:{n}: {l.strip()}"
            code = l.split("//")[0]
            if "ghost" in code or code.strip().startswith(("requires", "ensures")):
                continue
            if re.search(r"let mut \w+(: bool)? = (Ok\(\(\)\)|true|false|None);", code) or re.search(r"\w+: bool\b", code) or re.search(r"-> u8\b", code):
                found[1].append(at)
            if re.search(r"\bfor \w+ in [^{]*\.\.|\bwhile\b|\bloop\b", code):
                found[3].append(at)
            if re.search(r"self\.\w+ == other\.\w+|\bfn (of|whole|lifted|judged|stands_for_same|negative|is)\b|\.map_err\(|\bfn (push|put|show|digit)_?\w*", code):
                found[4].append(at)
            if re.search(r"^\s*(pub(\(crate\))? )?\w+: \[\w+; \w+\]", code):
                found[6].append(at)
            if re.search(r"memory: &mut \[\w+\], at: usize", code):
                found[6].append(at)
            if re.search(r"\bdyn\b|: fn\(|match step|\[fn\(", code):
                found[7].append(at)
        for fn, line, head, body in functions(text):
            where = f"{name}:{line}: {fn}"
            s = shape(body)
            if len(s) >= 10:
                shapes[s].append(where)
            for fact in re.findall(r"(?:requires|ensures)(?: \w+)? \{ (.*) \}", head):
                fact = re.sub(r"\b(self|counts|bytes|numbers|into|memory)\b", "it", fact)
                facts[(crate, fact)].add(where)
            m = re.search(r"\(([^()]*(?:\([^()]*\)[^()]*)*)\)", head[head.index(fn):], re.S)
            got = [re.sub(r"\s+", " ", p.strip()) for p in (m.group(1).split(",") if m else []) if ":" in p]
            for i, p in enumerate(got):
                for q in got[i + 1:]:
                    params[(crate, p, q)].add(where)
        for m in re.finditer(r"(?:struct|enum) (\w+)[^{;]*\{(.*?)\n\}", text, re.S):
            s = shape(re.sub(r"ghost \w+: \{.*\},|#\[.*?\]|///.*", "", m.group(2)))
            if len(s) >= 6:
                shapes[("type",) + s].append(f"{name}:{text.count(chr(10), 0, m.start()) + 1}: {m.group(1)}")
    for group in shapes.values():
        if len(group) > 1:
            found[2].append("  =  ".join(group))
    for (crate, fact), where in sorted(facts.items()):
        if len(where) >= 3:
            found[5].append(f"{crate}: {fact}  --  {len(where)}: " + ", ".join(sorted(w.split(': ')[1] for w in where)))
    for (crate, p, q), where in sorted(params.items()):
        if len(where) >= 3:
            found[5].append(f"{crate}: ({p}, {q})  --  {len(where)}: " + ", ".join(sorted(w.split(': ')[1] for w in where)))
    return found


def main():
    words = sys.argv[1:]
    verbose = "-v" in words
    commit = next((w for w in words if w != "-v"), None)
    found = places(commit)
    for point in range(1, 8):
        print(f"{point}: {len(found[point])}")
        if verbose:
            for place in found[point]:
                print("    " + place)


if __name__ == "__main__":
    main()
