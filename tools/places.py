#!/usr/bin/env python3
"""Counts forms of an older language in the sources of a checkout: python3 tools/places.py [CHECKOUT]
A pattern only points: it also finds what is right as it stands, and it misses what has no fixed form."""
import collections, itertools, pathlib, re, sys

root = pathlib.Path(sys.argv[1]) if len(sys.argv) > 1 else pathlib.Path(__file__).resolve().parent.parent
found, facts, bodies = (collections.defaultdict(list) for _ in range(3))
KEYWORDS = set("as break else false for if in let loop match mut return true while Some None Ok Err u64 u32 usize".split())

def closed(text, at):  # the place after the bracket that closes the one at a place
    depths = itertools.accumulate((c in "([{") - (c in ")]}") for c in itertools.islice(text, at, None))
    return at + 1 + next(i for i, depth in enumerate(depths) if depth == 0)

def parts(text):  # split at the commas that stand in no bracket
    out, depth = [""], 0
    for c in text:
        depth += (c in "([{<") - (c in ")]}>")
        out = out + [""] if c == "," and depth == 0 else out[:-1] + [out[-1] + c]
    return [" ".join(p.split()) for p in out if p.strip()]

def functions(text):  # name, parameters, required facts and body of each; clauses in braces stand before the body
    for m in re.finditer(r"\bfn (\w+)[^({]*\(", text):
        at, required = closed(text, m.end() - 1), []
        params = parts(text[m.end():at - 1])
        while True:
            head = re.compile(r"(?:\[[^\]]*\]|[^{;\[])*").match(text, at)
            end = closed(text, head.end()) if text[head.end()] == "{" else head.end()
            if not re.search(r"\b(requires|ensures)\b", head[0]):
                break
            required += text[head.end() + 1:end - 1].split(" × ") if "requires" in head[0] else []
            at = end
        yield m[1], params, required, text[head.end():end]

def plain(fact, params):  # a fact with types or fields in place of the names that its function gives
    types = dict(p.lower().split(": ", 1) for p in params if re.search(r": [A-Z]\w+$", p))
    def name(m):
        first, *fields = [w for w in m[0].split(".") if not re.fullmatch(r"\d+|old|new|now", w)]
        return fields[-1] if fields else types.get(first, first)
    return re.sub(r"[a-z_]\w*(?:\.\w+)*", name, " ".join(fact.strip(" ()").split()))

def copies(body):  # the struct literals that take three fields or more from one value
    local = dict(re.findall(r"let (\w+) = ((?:\w+\.)+\w+);", body))
    for m in re.finditer(r"\b[A-Z]\w*(?:::[A-Z]\w*)? \{", body):
        fields = [f.split(": ", 1) for f in parts(body[m.end():closed(body, m.end() - 1) - 1])]
        froms = [p[0] for f in fields for p in [local.get(f[-1], f[-1]).rpartition(".")] if p[0] and p[2] == f[0]]
        yield from [m[0][:-2]] * any(froms.count(f) > 2 for f in froms)

for crate, path in sorted((p.parts[-3], p) for p in root.glob("crates/*/src/*.rt")):
    text = re.sub(r"(//.*)|b?\"[^\"]*\"|b?'\\?[^']'", lambda m: "" if m[1] else "0", path.read_text(encoding="utf-8"))
    for m in re.finditer(r"\b(enum|struct) (\w+) \{", text):
        cases = parts(text[m.end():closed(text, m.end() - 1) - 1])
        bare = sum(not re.search(r"[({]", c) for c in cases)
        shape = {(2, 1): "Option", (3, 1): "Option", (2, 0): "Result"}.get((len(cases), bare))
        if m[1] == "enum" and shape:
            found[f"1 own enums of the shape of {shape}"] += [f"{crate}::{m[2]} = {' | '.join(cases)}"]
        counted = m[1] == "struct" and re.search(r": \[.*(count|len): u|(count|len): u.*: \[", str(cases))
        found["6 structs of an array and a count"] += [f"{crate}::{m[2]}"] * bool(counted)
    for name, params, required, body in functions(text):
        here, arms = f"{crate}::{name}", re.findall(r"\n\s*(\S.*?) => (.+?),?(?=\n)", body)
        numbers = all(re.fullmatch(r"\d+", a[1]) for a in arms) or all(re.fullmatch(r"\d+|_", a[0]) for a in arms)
        found["1 functions that match from or to numbers alone"] += [here] * (numbers and arms != [] and "from" != name)
        found["3 while and loop"] += [here] * len(re.findall(r"\b(?:while|loop)\b", body))
        found["4 literals with three fields or more of one value"] += [f"{here} {c}" for c in copies(body)]
        lesser = r"if (\S+?)(?:\.0)? [<>]=? (\S+?)(?:\.0)? \{\s*(\1|\2)\s*\} else \{\s*(\1|\2)\s*\}"
        found["4 functions for the lesser or larger by an if"] += [here] * len(re.findall(lesser, body))
        found["5 functions of eight parameters or more"] += [f"{here} {len(params)}"] * (len(params) > 7)
        tests = re.findall(r"if (\S+) == (?:\d+|(?:\w+::)*[A-Z_]+) \{", body)
        found["7 functions that choose by numbers in turn"] += [here] * (len(tests) > len(set(tests)))
        for fact in required:
            facts[plain(fact, params)] += [here]
        words, names = re.findall(r"\w+|[^\w\s]", body), {}  # names and numbers by where they come first
        key = tuple(w if w in KEYWORDS or not w[0].isalnum() else names.setdefault(w, len(names)) for w in words)
        bodies[key] += [here] * (len(words) > 24)
found["2 functions alike but for names and numbers"] = [" ".join(b) for b in bodies.values() if len(b) > 1]
found["5 facts required by three functions or more"] = [f"{f}: {' '.join(w)}" for f, w in facts.items() if len(set(w)) > 2]
for files, form in (("*.antt", "in all"), ("Answers.antt", "of answers")):
    found[f"8 lines of proofs {form}"] = [""] * sum(p.read_bytes().count(b"\n") for p in root.glob(f"crates/*/proofs/**/{files}"))
try:
    for form, places in sorted(found.items()):
        print(f"point {form}: {len(places)}", *filter(None, places), sep="\n  ")
except BrokenPipeError:  # the reader has seen enough
    sys.stderr.close()
