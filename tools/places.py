#!/usr/bin/env python3
"""Lists places in src/ that read like an older Rattle, one line each, and counts them.

  tools/places.py [POINT..]    the points to list; none: all
  tools/places.py --counts     the counts alone

Points:
  option   a match or let-else that only hands on None or an error; a bool beside other fields;
           a number for a kind
  twins    functions, or structs, of the same shape up to names and numbers
  loops    while and loop, and for over a range whose number is an index in the body
  by-hand  comparisons of fields one by one, minimum, maximum and exclusive or by if, a match that
           only lists what is false or None, names by a match to text
  groups   three parameters that stand together in three functions of a crate or more, and a fact
           that three functions of a crate or more require
  buffers  a length beside a buffer, several buffers side by side, a fixed array
  steps    an enum or flag whose match chooses which function is called with the same arguments
  proofs   answers and lemmas, in lines of each crate

A place that is found may be right as it is; what is kept says why beside it.
"""
import collections
import itertools
import os
import re
import sys

ROOT = os.path.join(os.path.dirname(os.path.abspath(__file__)), "..", "crates")
KEYWORDS = set(
    "as break const continue else enum false fn for if impl in let loop match mod move mut pub ref "
    "return self Self struct super trait true type use where while Some None Ok Err".split()
)


def sources():
    for crate in sorted(os.listdir(ROOT)):
        src = os.path.join(ROOT, crate, "src")
        if not os.path.isdir(src):
            continue
        for name in sorted(os.listdir(src)):
            if name.endswith(".rt"):
                with open(os.path.join(src, name), encoding="utf-8") as f:
                    yield crate, name, f.read().split("\n")


class Function:
    def __init__(self, crate, file, line, name, signature, clauses, body):
        self.crate, self.file, self.line, self.name = crate, file, line, name
        self.signature, self.clauses, self.body = signature, clauses, body
        self.where = f"{crate}/src/{file}:{line} {name}"

    def parameters(self):
        inner = self.signature[self.signature.find("(", self.signature.find("fn ")) + 1 :]
        depth, at = 1, 0
        while at < len(inner) and depth:
            depth += inner[at] in "([{"
            depth -= inner[at] in ")]}"
            at += 1
        out, depth, word = [], 0, ""
        for c in inner[: at - 1]:
            depth += c in "([{<"
            depth -= c in ")]}>"
            if c == "," and depth == 0:
                out.append(word.strip())
                word = ""
            else:
                word += c
        if word.strip():
            out.append(word.strip())
        return [re.sub(r"^mut ", "", p) for p in out if ":" in p]


def strip(line):
    return re.sub(r"//.*", "", line)


def functions():
    for crate, file, lines in sources():
        i = 0
        while i < len(lines):
            head = re.match(r"^(\s*)(?:pub(?:\(crate\))? )?(?:const )?fn (\w+)", lines[i])
            if not head:
                i += 1
                continue
            indent, name, start = head.group(1), head.group(2), i
            header = []
            while i < len(lines):
                line = strip(lines[i])
                header.append(line)
                if line.rstrip().endswith((";", "{}")) or line.rstrip() == indent + "{":
                    break
                if line.rstrip().endswith(" {") and not re.match(r"\s*(requires|ensures)", line):
                    break
                i += 1
            last = header[-1].rstrip() if header else ""
            body = []
            if not last.endswith((";", "{}")):
                i += 1
                while i < len(lines) and lines[i] != indent + "}":
                    body.append(strip(lines[i]))
                    i += 1
            text = "\n".join(header)
            cut = re.search(r"\n\s*(requires|ensures)\b", text)
            signature = re.sub(r"\s+", " ", text[: cut.start()] if cut else text)
            clauses = [
                re.sub(r"\s+", " ", c).strip()
                for c in re.findall(r"((?:requires|ensures)\b[^\n]*)", text)
            ]
            yield Function(crate, file, start + 1, name, signature, clauses, "\n".join(body))
            i += 1


def structs():
    for crate, file, lines in sources():
        for i, line in enumerate(lines):
            head = re.match(r"^(\s*)(?:pub(?:\(crate\))? )?struct (\w+)[^;(]*\{", line)
            if not head:
                continue
            fields = []
            for inner in lines[i + 1 :]:
                if inner == head.group(1) + "}":
                    break
                field = re.match(r"\s*(?:pub(?:\(crate\))? )?(\w+): (.*?),?$", strip(inner).rstrip())
                if field and not inner.strip().startswith("ghost"):
                    fields.append((field.group(1), field.group(2)))
            yield f"{crate}/src/{file}:{i + 1} {head.group(2)}", crate, fields


def tokens(text):
    return re.findall(r"[A-Za-z_]\w*|\d[\w]*|b'.{1,2}'|\"[^\"]*\"|\S", text)


def skeleton(text):
    """The tokens with every name, number and text made alike, but for keywords."""
    out = []
    for t in tokens(text):
        if t in KEYWORDS:
            out.append(t)
        elif re.match(r"[A-Za-z_]", t):
            out.append("a")
        elif re.match(r"\d|b'|\"", t):
            out.append("0")
        else:
            out.append(t)
    return " ".join(out)


def is_test(f):
    return f.crate.endswith("tests") or f.crate == "checks"


def option():
    for f in functions():
        seen = set()
        for p in (
            r"None => None", r"Err\((\w+)\) => Err\(\1\)", r"Err\(_\) => None", r"Ok\((\w+)\) => Some\(\1\)",
            r"None => Ok\(None\)", r"else \{\s*return None;\s*\}", r"None => return None",
            r"None => false", r"Err\(_\) => (false|0|\"\?\")", r"None => [\w:]+,?\n", r"Ok\((\w+)\) => \1,",
        ):
            for m in re.finditer(p, f.body):
                if m.start() not in seen:
                    seen.add(m.start())
                    yield f"{f.where}: {' '.join(m.group(0).split())}"
        if re.search(r"-> u(8|16|32)\b", f.signature) and f.body.count("=>") >= 3 and re.search(r"=> \d+,", f.body):
            yield f"{f.where}: a number for a kind"
    for where, _, fields in structs():
        flags = [n for n, t in fields if t == "bool"]
        if flags and len(fields) > len(flags):
            yield f"{where}: flag {', '.join(flags)}"


def twins():
    for what, least in (("body", 16), ("short", 8)):
        groups = collections.defaultdict(list)
        for f in functions():
            if is_test(f) or re.search(r"^\s*0\s*$", f.body) or not f.body.strip():
                continue
            n = len(tokens(f.body))
            if what == "body" and n >= least:
                groups[skeleton(re.sub(r"^.*?\bfn", "fn", f.signature) + f.body)].append(f)
            elif what == "short" and least <= n < 16:
                groups[(f.crate, skeleton(re.sub(r"^.*?\bfn", "fn", f.signature) + f.body))].append(f)
        for group in groups.values():
            if len(group) > 1:
                yield " = ".join(f.where for f in group)
    groups = collections.defaultdict(list)
    for where, _, fields in structs():
        if len(fields) > 1:
            groups[tuple(sorted(n for n, _ in fields))].append(where)
    for group in groups.values():
        if len(group) > 1:
            yield "struct " + " = ".join(group)


def block(text, at):
    """What stands between the brace at `at` and its partner."""
    depth, i = 0, at
    while i < len(text):
        depth += text[i] == "{"
        depth -= text[i] == "}"
        if depth == 0:
            break
        i += 1
    return text[at:i]


def loops():
    for f in functions():
        for m in re.finditer(r"^\s*(?:while (?!let)[^{]*|loop )\{", f.body, re.M):
            yield f"{f.where}: {' '.join(m.group(0).split())}"
        for m in re.finditer(r"for (\w+) in [^\n{]*\.\.[^\n{]*\{", f.body):
            if re.search(rf"\[[^\]]*\b{m.group(1)}\b[^\]]*\]", block(f.body, m.end() - 1)):
                yield f"{f.where}: {m.group(0)}"


def by_hand():
    for f in functions():
        body = " ".join(f.body.split())
        if re.search(r"(\w+)\.(\w+) == (\w+)\.\2 && \1\.(\w+) == \3\.\4", body):
            yield f"{f.where}: equality field by field"
        if re.fullmatch(r"(\w+) == (\w+)", body):
            yield f"{f.where}: equality in a function of its own"
        if re.search(r"if (\w+) < (\w+) \{ (\1|\2) \} else \{ (\1|\2) \}", body):
            yield f"{f.where}: minimum or maximum"
        if re.search(r"if (\w+) \{ !(\w+) \} else \{ \2 \}", body):
            yield f"{f.where}: exclusive or"
        if len(re.findall(r"=> (?:false|None|0),", body)) >= 2:
            yield f"{f.where}: a match that lists what is nothing"
        elif re.fullmatch(r"match .*\{ .*=> true, _ => false,? \}", body):
            yield f"{f.where}: matches by hand"
        if re.search(r"-> &'static str", f.signature) and len(re.findall(r"=> \"", body)) >= 2:
            yield f"{f.where}: names by a match"
        if re.search(r"b?'0'.*b?'9'", body) and ">=" in body:
            yield f"{f.where}: a digit by its bounds"


def groups():
    sets = collections.defaultdict(list)
    facts = collections.defaultdict(list)
    for f in functions():
        if is_test(f):
            continue
        names = sorted({p.split(":")[0].strip() for p in f.parameters()} - {"rt"})
        for three in itertools.combinations(names, 3):
            sets[(f.crate, three)].append(f)
        for c in f.clauses:
            if c.startswith("requires"):
                for fact in re.split(r"\s×\s", re.sub(r"^requires (\w+ )?\{ | \}$", "", c)):
                    fact = re.sub(r"^\(+|\)+$", "", fact)
                    facts[(f.crate, fact)].append(f)
    done = set()
    for (crate, three), fs in sorted(sets.items(), key=lambda e: (-len(e[1]), e[0])):
        if len(fs) >= 3:
            key = (crate, frozenset(f.where for f in fs))
            if any(k[0] == crate and key[1] <= k[1] for k in done):
                continue
            done.add(key)
            yield f"{crate}: {', '.join(three)} in {len(fs)} functions: {', '.join(f.name for f in fs)}"
    for (crate, fact), fs in sorted(facts.items(), key=lambda e: (-len(e[1]), e[0])):
        if len(fs) >= 3 and len(fact) > 6:
            yield f"{crate}: {fact} required by {len(fs)} functions: {', '.join(f.name for f in fs)}"


def buffers():
    for where, _, fields in structs():
        bufs = [n for n, t in fields if re.search(r"Vec<|\[\w", t)]
        lens = [n for n, t in fields if t == "usize" and n in ("n", "len", "count", "used")]
        arrays = [n for n, t in fields if re.match(r"\[\w+; ", t)]
        if bufs and lens:
            yield f"{where}: {', '.join(bufs)} with {', '.join(lens)} beside"
        elif arrays:
            yield f"{where}: fixed array {', '.join(arrays)}"
        if len([b for b in bufs if b not in arrays]) > 1:
            yield f"{where}: side by side {', '.join(bufs)}"
    for f in functions():
        if is_test(f):
            continue
        ps = f.parameters()
        bufs = [p for p in ps if re.search(r": &(?:'\w+ )?(?:mut )?\[", p)]
        lens = [p for p in ps if re.fullmatch(r"(n|len|k): usize", p)]
        if bufs and lens:
            yield f"{f.where}: {', '.join(bufs)} with {', '.join(lens)} beside"
        for m in re.finditer(r"\[[^\]\n;]+; [A-Z_]+\]", f.body):
            yield f"{f.where}: fixed array {m.group(0)}"


def steps():
    for f in functions():
        arms = re.findall(r"=> (?:return )?([a-z_]\w*)\(([^()]*)\)", f.body)
        names = {n for n, _ in arms}
        if len(names) >= 3 and len({a for _, a in arms}) == 1:
            yield f"{f.where}: {', '.join(sorted(names))}"
        for m in re.finditer(r": fn\(", f.signature + f.body):
            yield f"{f.where}: a function pointer"


def proofs():
    for crate in sorted(os.listdir(ROOT)):
        top = os.path.join(ROOT, crate, "proofs")
        answers = lemmas = files = 0
        for where, _, names in os.walk(top):
            for name in names:
                if name.endswith(".antt"):
                    with open(os.path.join(where, name), encoding="utf-8") as f:
                        n = len(f.read().split("\n")) - 1
                    files += 1
                    if where == top:
                        lemmas += n
                    else:
                        answers += n
        if files:
            yield f"{crate}: {files} files, {answers} lines of answers, {lemmas} lines of lemmas"


POINTS = {
    "option": option, "twins": twins, "loops": loops, "by-hand": by_hand,
    "groups": groups, "buffers": buffers, "steps": steps, "proofs": proofs,
}


def main(args):
    short = "--counts" in args
    wanted = [a for a in args if a in POINTS] or list(POINTS)
    for point in wanted:
        places = list(POINTS[point]())
        print(f"{point}: {len(places)}")
        if not short:
            for place in places:
                print(f"  {place}")


main(sys.argv[1:])
