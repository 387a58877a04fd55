#!/usr/bin/env python3
"""Turns a crate's Proof.antt files of the older form into Invariants.antt and Answers.antt.

usage: tools/answers.py CRATE NAMES [FUNCTION..]

NAMES is the names.json that `rt check --generated FOLDER --old-names` writes. Each invariant and measure goes to Invariants.antt and
each answer to Answers.antt, under today's names of goals and steps; what the last line passed inline and is no more than a tactic is
dropped, since the check tries tactics itself. It prints what it could not place.
"""
import glob
import json
import os
import re
import sys

TOKEN = r"[^\s(){}\[\],;.\"`|\\:=]+"
TRIVIAL = re.compile(r"^\(?λ c( κs)?\. (omega arith|search rules|search \(rules, arith\)|refl|cc)\)?$")
# fields of the library's records that a step may be named like
ALIKE = {"mul", "add", "neg", "sub", "inverse", "zero", "one"}
PLAIN = re.compile(r"^(u8|u16|u32|u64|usize|bool|i32|i64)$")
HELD = {"args", "new", "auto", "ranges", "type_inv", "initial", "fn"}


def key(name):
    return name.replace("-", "_")


def functions():
    """The parameters of each function that hold more than a number, by the function's name."""
    found = {}
    for path in glob.glob("crates/*/src/*.rt"):
        with open(path, encoding="utf-8") as f:
            text = re.sub(r"//.*", "", f.read())
        for m in re.finditer(r"\bfn (\w+)(?:<[^>]*>)?\(", text):
            depth, i = 1, m.end()
            while depth:
                depth += {"(": 1, "[": 1, ")": -1, "]": -1}.get(text[i], 0)
                i += 1
            params, depth, now = [], 0, ""
            for ch in text[m.end():i - 1] + ",":
                depth += {"(": 1, "[": 1, "<": 1, ")": -1, "]": -1, ">": -1}.get(ch, 0)
                if ch == "," and depth == 0:
                    if now.strip():
                        params.append(now.strip())
                    now = ""
                else:
                    now += ch
            held = []
            for p in params:
                name, _, kind = p.partition(":")
                name = name.replace("&", "").replace("mut ", "").strip()
                if not PLAIN.match(kind.strip()):
                    held.append(name)
            end = re.search(r"^\s*\{\s*$", text[i:], re.M)
            clauses = text[i:i + end.start()] if end else text[i:]
            names = {k: re.findall(r"\b" + k + r"(?: (\w+))? \{", clauses) for k in ("requires", "ensures")}
            found.setdefault(m.group(1), (held, names))
    return found


def clause_of(fields, path):
    """The field of a clause for a right-nested path, and what is left of the path."""
    n, i = 0, 0
    while i < len(path) and path[i] == "1" and n < len(fields) - 1:
        n += 1
        i += 1
    if n < len(fields) - 1:
        if i >= len(path) or path[i] != "0":
            return None
        i += 1
    return fields[n], path[i:]


FUNCTIONS = functions()


def blocks_of(text):
    """The top-level declarations: lists of lines, each led by its comments."""
    blocks, now = [], []
    for line in text.split("\n"):
        if line.strip() == "":
            if now:
                blocks.append(now)
                now = []
        else:
            now.append(line)
    if now:
        blocks.append(now)
    out = []
    for block in blocks:
        if out and block[0].startswith(" "):
            out[-1] += [""] + block
        else:
            out.append(block)
    return out


def split_top(text, at):
    """Splits at a character outside brackets."""
    out, depth, now = [], 0, ""
    for ch in text:
        if ch in "([{":
            depth += 1
        if ch in ")]}":
            depth -= 1
        if (ch == at or (at == " " and ch.isspace())) and depth == 0:
            out.append(now)
            now = ""
        else:
            now += ch
    out.append(now)
    return [p for p in (re.sub(r"\s+", " ", p).strip() if at == " " else p.strip() for p in out) if p]


def parts_of(term, n):
    """The n parts of a right-nested tuple, or None."""
    term = term.strip()
    if n == 1:
        return [term]
    if not (term.startswith("(") and term.endswith(")")):
        return None
    depth = 0
    for i, ch in enumerate(term):
        depth += {"(": 1, ")": -1}.get(ch, 0)
        if depth == 0 and i < len(term) - 1:
            return None
    parts = split_top(term[1:-1], ",")
    if len(parts) < 2:
        return None
    if len(parts) > 2:
        head, rest = parts[0], "(" + ", ".join(parts[1:]) + ")"
        if len(parts) == n:
            return parts
    else:
        head, rest = parts
    tail = parts_of(rest, n - 1)
    return None if tail is None else [head] + tail


class Names:
    def __init__(self, entry):
        self.labels, self.places, self.needs, self.callee, self.arms = {}, {}, {}, {}, []
        for place, by_name in zip(entry["places"], entry["places_by_name"]):
            self.places[key(place[0])] = by_name
            old, new = place[2]
            if old:
                self.labels.setdefault(key(old), new)
            if place[3]:
                self.callee[new] = place[3].split("::")[-1]
        for arm in entry["arms"]:
            if arm:
                for field, label, path in arm[2]:
                    if path:
                        self.arms.append(([key(label)] + path, [arm[0], field]))
        self.cited = set()
        self.arms.sort(key=lambda a: -len(a[0]))
        for old, new in entry["needs"]:
            self.needs.setdefault(key(old), new)
        self.order = [new for _, new in entry["needs"]]
        self.asked = entry["asked"]
        self.pre = entry["pre"]["fields"] if entry["pre"] else None
        self.loops = {}
        for (pair, names), changed in zip(entry["loops"], entry["changed"]):
            self.loops[key(pair[0])] = (pair[1], names, changed)
        self.loop_labels = {pair[1] for pair, _ in entry["loops"]}


def need_of(names, label):
    k = key(label)
    tries = [k]
    for prefix in ("overflow_", "nonzero_", "bounds_", "slice_bounds_", "slice_"):
        if k.startswith(prefix):
            tries.append(k[len(prefix):])
    tries += [t.replace("slice_bounds_", "bounds_") for t in tries]
    tries += [t for old, t in ((names.needs[n], n) for n in names.needs) if key(old) == k]
    for t in tries:
        if t in names.needs:
            return names.needs[t]
    return None


def turn_chain(chain, names, said, keep=False):
    parts = chain.split(".")[1:]
    if keep and set(parts) == {"before"}:
        return chain
    parts = [p for p in parts if p != "before"]
    out, i = [], 0
    while i < len(parts):
        name = parts[i]
        last = out[-1] if out else None
        if last in HELD or last in names.loop_labels:
            if last in names.loop_labels and name == "inv":
                name = "invariant"
            if last in ("new", "auto") and re.match(r"^[01]$", name) and len(out) > 1 and out[-2] in names.callee:
                n = 0
                while i < len(parts) and parts[i] == "1":
                    n += 1
                    i += 1
                if i < len(parts) and parts[i] == "0":
                    i += 1
                held = FUNCTIONS.get(names.callee[out[-2]], ([], {}))[0]
                if n < len(held):
                    out.append(held[n])
                else:
                    out.append(f"LOST-{n}")
                continue
            out.append(key(name) if not re.match(r"^[01]$", name) else name)
            i += 1
            continue
        for old, new in names.arms:
            if [key(p) for p in parts[i:i + len(old)]] == old:
                out += new
                i += len(old)
                break
        else:
            k = key(name)
            if last == "requires" and len(out) == 1 and names.pre and re.match(r"^\d$", name):
                found = clause_of(names.pre, parts[i:])
                if found:
                    out.append(found[0])
                    i = len(parts) - len(found[1])
                    continue
                out.append(name)
            elif last == "ensures" and len(out) > 1 and out[-2] in names.callee and re.match(r"^\d$", name):
                fields = FUNCTIONS.get(names.callee[out[-2]], ([], {}))[1].get("ensures", [])
                found = clause_of(fields, parts[i:]) if len(fields) > 1 else None
                if found:
                    out.append(found[0])
                    i = len(parts) - len(found[1])
                    continue
                out.append(name)
            elif k in names.labels and not names.labels[k].endswith("-1") and (i + 1 < len(parts) or name not in ALIKE):
                out.append(names.labels[k])
            elif k in names.labels and names.labels[k].endswith("-1") and i + 1 < len(parts) and parts[i + 1] in ("given", "is"):
                out.append(names.labels[k])
            elif "-" in name and not re.match(r"(not|in|if|for|loop)-", name):
                out.append(k)
            else:
                out.append(name)
            i += 1
    return "".join("." + p for p in out)


def turn(text, names, said):
    text = _turn(text, names, said)
    text = plain_tests(text)
    for label, callee in names.callee.items():
        fields = FUNCTIONS.get(callee, ([], {}))[1].get("ensures", [])
        if len(fields) < 2:
            continue
        for alias in set(re.findall(r"let (\S+) = \S+?\." + re.escape(label) + r"\.ensures in", text)):
            text = re.sub(r"(?<![\w'-])" + re.escape(alias) + r"((?:\.[01])+)(?![\w])",
                          lambda m: named(alias, fields, m.group(1).split(".")[1:]), text)
        text = re.sub(r"(?<=[\s(\[,])([^\s(){}\[\],;]*\." + re.escape(label) + r"\.ensures)(?=[\s)\],]|$)(?!\s+in\b)", lambda m: whole(m.group(1), fields), text)
    if names.pre and len(names.pre) > 1:
        text = re.sub(r"(?<=[\s(\[,])([^\s(){}\[\],;]+\.requires)(?=[\s)\],])(?! in\b)(?!\s+in\b)", lambda m: whole(m.group(1), names.pre), text)
        for alias in set(re.findall(r"let (\S+) = \S+?\.requires in", text)):
            text = re.sub(r"(?<![\w'-])" + re.escape(alias) + r"((?:\.[01])+)(?![\w])",
                          lambda m: named(alias, names.pre, m.group(1).split(".")[1:]), text)
    return text


ATOM = r"(?:\((?:[^()]|\([^()]*\))*\)|[^\s(){}\[\],;]+)"


def plain_tests(text):
    """A test's fact is an equation or an order itself."""
    return re.sub(r"\b(?:eqb|ltb|leb|nat_eq|nat_lt|nat_le)-(?:true|false) (?:" + ATOM + r" ){2}((?:[^\s(){}\[\],;]+)\.(?:true|false))(?![\w'-])", r"\1", text)


def whole(alias, fields):
    out = f"{alias}.{fields[-1]}"
    for f in reversed(fields[:-1]):
        out = f"({alias}.{f}, {out})"
    return out


def named(alias, fields, path):
    found = clause_of(fields, path)
    return alias + "".join("." + p for p in (path if found is None else [found[0]] + found[1]))


def _turn(text, names, said):
    def one(m):
        # a context that goes to a lemma whole stays the one of its place
        bound = re.search(r"let (\S+) = \S+$", text[:m.start()])
        bare = bound is None or re.search(r"(?<![\w'.-])" + re.escape(bound.group(1)) + r"(?=[\s)\],;])(?! =)", text[m.end():]) is not None
        return turn_chain(m.group(0), names, said, bare)
    return re.sub(r"(?<!goal)(?:\.(?:" + TOKEN + r"))+", one, text)


def types(text, names):
    """Contexts by their new names, with no arguments."""
    atom = r"(?:\s+(?:\([^()]*\)|reads\.\w+|[\w-]+reads\.\w+|(?:invariant|decreases)-[\w-]+))*"
    return re.sub(r"\b(?:tie|lts)\.((?:After|In|At|Then|Else|Start|Join|Past|Loop)[\w'-]*)" + atom,
                  lambda t: place(names.places.get(key(t.group(1)), "LOST-" + t.group(1)), names), text)


def place(name, names):
    names.cited.add(name)
    return "The-" + name


def final_of(text):
    """Where the last term begins: behind the last 'in' of its lets."""
    at = 0
    depth = 0
    for m in re.finditer(r"[(\[{]|[)\]}]|(?<![\w'-])in(?![\w'-])", text):
        if m.group(0) in "([{":
            depth += 1
        elif m.group(0) in ")]}":
            depth -= 1
        elif depth == 0:
            at = m.end()
    return at


def as_record(value, fields):
    at = final_of(value)
    head, term = value[:at], value[at:]
    lead = re.match(r"\s*", term).group(0)
    parts = parts_of(term, len(fields))
    if parts is None:
        return f"{head}{lead}let r = {term.strip()} in record {{ " + "; ".join(
            f"{f} = r.{'1.' * i}{'0' if i < len(fields) - 1 else ''}".rstrip(".") for i, f in enumerate(fields)) + " }"
    return f"{head}{lead}record {{\n      " + ";\n      ".join(f"{f} = {p}" for f, p in zip(fields, parts)) + ";\n    }"


def place_inline(passed, answered, names, answers, said):
    """Answers passed inline go to the goals at their places, counted between the named ones."""
    lost, gaps, at = [], [], 0
    gap = []
    for arg in passed + [None]:
        if arg is None or arg in answered:
            goal = len(names.order) if arg is None else (names.order.index(answered[arg]) if answered[arg] in names.order else None)
            if goal is None:
                continue
            gaps.append((gap, names.order[at:goal]))
            gap, at = [], goal + 1
        else:
            gap.append(arg)
    for given, goals in gaps:
        real = [a for a in given if not TRIVIAL.match(a)]
        if not real:
            continue
        if len(given) == len(goals):
            pairs = [(a, g) for a, g in zip(given, goals) if not TRIVIAL.match(a)]
        elif len(real) == len(goals):
            pairs = list(zip(real, goals))
        else:
            lost += real
            continue
        for arg, goal in pairs:
            m = re.match(r"\(λ (\S+?)( κs)?\. (.*)\)$", arg, re.S)
            if not m:
                lost.append(arg)
                continue
            value = turn(f"{goal} {m.group(1)} = {m.group(3)}", names, said)
            asked = asked_of(names, goal)
            if asked and len(asked) > 1:
                cut = value.index("=") + 1
                value = value[:cut] + as_record(value[cut:], asked)
            answers.append([f"pub {goal} : goal.{goal}", value])
    return lost


def asked_of(names, goal):
    return names.asked.get(goal) or (names.asked.get("returns") if goal.startswith("returns") else None)


def convert(crate, folder, module, entry, said):
    path = os.path.join(folder, "Proof.antt")
    with open(path, encoding="utf-8") as f:
        text = f.read()
    names = Names(entry)
    head, invariants, answers, uses, rest = [], [], [], [], []
    spec = None
    text = re.sub(r"^(use [^\n]*) as\n\s+", r"\1 as ", text, flags=re.M)
    for block in blocks_of(text):
        body = [line for line in block]
        lead = []
        while body and (body[0].startswith("--") or body[0].startswith("use ")):
            line = body.pop(0)
            if line.startswith("use "):
                head += lead
                lead = []
                uses.append(line)
            else:
                lead.append(line)
        if not body:
            head += lead
            continue
        rest.append((lead, body))
    answered = {}
    for lead, body in rest:
        first = body[0]
        joined = "\n".join(body)
        m = re.match(r"(?:abbrev )?(?:pub )?(invariant|decreases)-(\S+) : tie\.", first)
        if m and len(body) > 1:
            loop = names.loops.get(key(m.group(2)))
            if loop is None:
                said.append(f"{folder}: no loop {m.group(2)}")
                continue
            new, fields, changed = loop
            d = re.match(r"\S+((?:\s+[^\s=]+)*)\s*=(\s*.*)$", "\n".join(body[1:]), re.S)
            params, value = d.group(1).split(), d.group(2)
            want = [(f, "initial" if c else "now") for f, c in zip(fields, changed)] + [(f, "now") for f, c in zip(fields, changed) if c]
            if len(params) != len(want):
                said.append(f"{folder}: {m.group(0)} has {len(params)} parameters, not {len(want)}: {params} {want}")
            tokens = set(re.findall(TOKEN, value)) - set(params)
            at = next(v for v in ("l", "turn", "now") if v not in tokens)
            subst = {}
            for name, (field, when) in zip(params, want):
                if name != "_":
                    subst[name] = f"{at}.initial.{field}" if when == "initial" else f"{at}.{field}"
            value = _turn(value, names, said)
            value = re.sub(r"(?<![\w'.₀-₉-])(" + TOKEN + r")", lambda t: subst.get(t.group(1), t.group(1)), value)
            flag = m.group(1)
            invariants.append(lead + [f"abbrev pub {flag}-{new} : goal.{flag}-{new}", f"{flag}-{new} {at} ={value}"])
            continue
        m = re.match(r"(?:pub )?(\S+) : tie\.Need-(\S+)", first)
        if m:
            new = need_of(names, m.group(2))
            if new is None:
                said.append(f"{folder}: no goal for {m.group(2)}; goals: {' '.join(names.order)}")
                new = m.group(2)
            old = m.group(1)
            answered[old] = new
            lines, value = [f"pub {new} : goal.{new}"], []
            for line in body[1:]:
                line = re.sub(r"^" + re.escape(old) + r" (\S+) κs(?= )", lambda t: f"{new} {t.group(1)}", line)
                line = re.sub(r"^" + re.escape(old) + r"(?= )", new, line)
                value.append(line)
            value = turn("\n".join(value), names, said)
            asked = names.asked.get(new) or (names.asked.get("returns") if new.startswith("returns") else None)
            if new.startswith("returns") and asked is None:
                own = FUNCTIONS.get(os.path.basename(folder), ([], {}))[1].get("ensures", [])
                asked = own if len(own) > 1 else None
            if asked and len(asked) > 1:
                d = re.search(r"^(" + re.escape(new) + r"[^\n=]*=)(.*)$", value, re.S | re.M)
                if d:
                    value = value[:d.start()] + d.group(1) + as_record(d.group(2), asked)
            answers.append(lead + lines + [value])
            continue
        if re.match(r"(pub )?\S+[-_]spec\b", first):
            spec = joined
            continue
        joined = types(joined, names)
        answers.append(lead + [turn(joined, names, said)])
    if spec:
        m = re.search(r"tie\.spec\s*(.*)\)\s*$", spec, re.S)
        if m:
            passed = [a for a in split_top(m.group(1), " ") if not re.match(r"(invariant|decreases)-", a)]
            lost = place_inline(passed, answered, names, answers, said)
            if lost:
                said.append(f"{folder}: inline answers dropped: {lost} of {' '.join(names.order)}")
    keep = [u for u in uses if not re.search(r"\.Statement\.|\.Tie as tie|\.Reads as |\.Lts as ", u)]

    def write(name, what, blocks, used):
        lines = used + keep + [f"use {module}.{what} as goal"]
        if what == "Goals" and names.cited:
            lines.append(f"use {module}.Goals.{{{', '.join(f'{c} as The-{c}' for c in sorted(names.cited))}}}")
        lines.append("")
        for block in blocks:
            lines += block + [""]
        with open(os.path.join(folder, name), "w", encoding="utf-8") as f:
            f.write("\n".join(lines))

    if invariants:
        write("Invariants.antt", "Given", invariants, head)
    if answers:
        write("Answers.antt", "Goals", answers, [] if invariants else head)
    os.remove(path)


def main():
    crate, names_path, only = sys.argv[1], sys.argv[2], sys.argv[3:]
    with open(names_path, encoding="utf-8") as f:
        entries = json.load(f)
    said = []
    base = os.path.join("crates", crate, "proofs")
    for folder, _, files in os.walk(base):
        if "Proof.antt" not in files:
            continue
        rel = os.path.relpath(folder, base).replace(os.sep, ".")
        if only and rel not in only and rel.split(".")[-1] not in only:
            continue
        entry = entries.get(f"Rattle-{crate}-proofs.{rel}.Lts")
        if entry is None:
            said.append(f"{folder}: no names")
            continue
        convert(crate, folder, f"Rattle.{crate}.proofs.{rel}", entry, said)
    print("\n".join(said))


main()
