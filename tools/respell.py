#!/usr/bin/env python3
"""Brings this repository's definitions, lemmas, fields and bound names to snake case.

usage: tools/respell.py KIT

Run once at the top, behind port.py. KIT is the folder of the installed Rattle: names that a file takes from it stay. A name is turned
where the repository's own proofs or definitions bind it: 'firstEntries' to 'first_entries', 'length-stored' to 'length_stored'. Types,
facts and modules keep their capitals, and so do functions of src/, exported C names and strings. In pages a name is turned where it
stands in backquotes. What falls together with another name is printed, and --only-look changes nothing.
"""
import collections
import os
import re
import sys

TOKEN = re.compile(r"[^\s(){}\[\],;.\"`|\\:=]+")
BOUND = re.compile(r"(?:^|[\s({;])(?:pub |abbrev |private )*([^\s(){}\[\],;.:\"`]+)\s*:(?=\s|$)", re.M)
IMPORT = re.compile(r"^\s*(?:pub )?use (\S+?)\.?\{([^}]*)\}", re.M)
MADE = re.compile(r"^(Need|After|invariant|decreases|returns|loop|Lts|Load|Inv)-|^tie$|^get_or-|^drop_of_length-")
# bound in the kit's records and named by projection alone
KEPT = {"get_or-take", "get_or-drop", "get_or-append"}
# lemmas that would have the name of the definition that they speak of
LEMMAS = """certificate-entries certificate-exceeds certificate-form certificate-in certificate-rows certificate-words
    certifying-denominator certifying-monic certifying-numerators coefficients-at column-so-far decimal-value file-rows first-words
    form-word framed-words head-word line-file-rows line-rows longest-certificate longest-system lookup-rows panel-rows
    polynomial-rows polynomial-words polynomials-words read-certificate row-stored rowed-number rowed-word side-entry side-word
    sizes-count slot-size tail-one tail-size tail-words to-load values-count vector-in write-certificate""".split()
# the same for names that port.py has turned: only in these files
TURNED_LEMMAS = {
    "head_in": ["words/specs/BeforeLaws.antt"],
    "left_out": ["solve_certify/specs/Dropping.antt", "solve_certify/proofs/dropping/leave_out/Proof.antt"],
    "one_line": ["link/specs/Theorems.antt"],
    "too_long": ["cardcheck/specs/SeenLaws.antt", "streams/specs/SystemSpace.antt"],
}


def is_camel(name):
    return re.match(r"^[a-zα-ω][\w₀-₉'?]*[A-Z]", name) is not None


def is_candidate(name):
    if not re.search(r"[A-Za-z]", name) or name.startswith("-") or MADE.search(name) or name in KEPT:
        return False
    if "◌" in name:
        return False
    return ("-" in name and not re.match(r"^[A-Z][A-Za-z]+-", name)) or is_camel(name.split("-")[0]) or is_camel(name)


def respelled(name):
    parts = []
    for part in name.split("-"):
        part = re.sub(r"(?<=[a-z0-9ₙ])([A-Z])(?=[a-z])", lambda m: "_" + m.group(1).lower(), part) if not re.match(r"^[A-Z]", part) else part
        part = re.sub(r"(?<=[a-z0-9])([A-Z])", r"_\1", part) if not re.match(r"^[A-Z]", part) else part
        parts.append(part)
    return "_".join(parts).replace("get_D", "get_or").replace("of_X", "of_x") + ("_lem" if name in LEMMAS else "")


def code_of(text):
    return "\n".join(line for line in text.split("\n") if not line.lstrip().startswith("--"))


def files(ending):
    for folder, dirs, names in os.walk("crates"):
        dirs[:] = sorted(d for d in dirs if d != "out")
        for name in sorted(names):
            if name.endswith(ending):
                yield os.path.join(folder, name)


def read(path):
    with open(path, encoding="utf-8") as f:
        return f.read()


def from_kit(text, own_crates):
    found = set()
    for path, names in IMPORT.findall(text):
        crate = re.match(r"Rattle\.(\w+)\.", path + ".")
        if crate and crate.group(1) in own_crates:
            continue
        for name in names.split(","):
            parts = name.strip().split(" as ")
            found.add(parts[-1].strip())
            found.add(parts[0].strip())
    return found


def is_proof(path):
    return os.path.basename(path) == "Proof.antt"


def main():
    look = "--only-look" in sys.argv
    crates = {line.split(":")[0].split()[0] for line in read("crates.txt").split("\n") if line.strip() and not line.startswith("#")}
    texts = {path: read(path) for path in files(".antt")}
    bound, exported, tokens = collections.Counter(), set(), collections.Counter()
    for path, text in texts.items():
        code = code_of(text)
        kit = from_kit(code, crates)
        for name in TOKEN.findall(code):
            tokens[name] += 1
        if is_proof(path):
            continue
        for name in BOUND.findall(code):
            exported.add(name)
        for name in TOKEN.findall(code):
            if name not in kit:
                bound[name] += 1
    own = {name: respelled(name) for name in bound if is_candidate(name)}
    own = {name: new for name, new in own.items() if name != new}
    into = collections.defaultdict(list)
    for name, new in own.items():
        into[new].append(name)
    for new, names in sorted(into.items()):
        if len(names) > 1:
            print("fall together:", new, names)
        if tokens.get(new):
            here = [p for p in texts if re.search(r"(?<![\w'-])" + re.escape(new) + r"(?![\w'-])", texts[p])]
            there = [p for p in texts if re.search(r"(?<![\w'?-])" + re.escape(names[0]) + r"(?![\w'?-])", texts[p])]
            both = sorted(set(here) & set(there))
            print("stands already:", names[0], "->", new, "in one file:" if both else "elsewhere", both[:4])
    rust = set()
    for path in files(".rt"):
        for line in read(path).split("\n"):
            bare = re.sub(r"//.*", "", line)
            for name in re.findall(r"\b(?:fn|let(?: mut)?|const|mod)\s+(\w+)|(\w+)\s*:\s*(?:&|u\d|usize|bool|\[|[A-Z])", bare):
                rust.update(n for n in name if n)
    for new in sorted(into):
        if new in rust:
            print("also a name of src/:", into[new], "->", new)
    if look:
        return

    def turn(text, kit, names, markers=None):
        def one(m):
            name = m.group(0)
            before = text[m.start() - 1] if m.start() else ""
            if name in kit and before != ".":
                return name
            return names.get(name, name)
        return TOKEN.sub(one, text)

    def turn_lines(text, kit, names):
        out = []
        for line in text.split("\n"):
            if line.lstrip().startswith("--"):
                out.append(TOKEN.sub(lambda m: names.get(m.group(0), m.group(0)) if is_camel(m.group(0)) else m.group(0), line))
            else:
                out.append(turn(line, kit, names))
        return "\n".join(out)

    for path, text in texts.items():
        kit = from_kit(code_of(text), crates)
        names = own
        if is_proof(path):
            taken = {name.strip() for _, listed in IMPORT.findall(text) for name in re.split(r",| as ", listed)}
            names = {n: v for n, v in own.items() if n in taken or (n in exported and n not in LEMMAS)}
        names = dict(names)
        for name, places in TURNED_LEMMAS.items():
            if path.replace("crates/", "") in places:
                names[name] = name + "_lem"
        new = turn_lines(text, kit, names)
        if new != text:
            with open(path, "w", encoding="utf-8") as f:
                f.write(new)
    for path in files(".rt"):
        text = read(path)
        kit = from_kit(re.sub(r"ghost use", "use", text), crates)
        out = []
        for line in text.split("\n"):
            if line.lstrip().startswith("//"):
                out.append(TOKEN.sub(lambda m: own.get(m.group(0), m.group(0)) if is_camel(m.group(0)) else m.group(0), line))
                continue
            pieces = re.split(r'("(?:[^"\\]|\\.)*")', line)
            out.append("".join(piece if i % 2 else turn(piece, kit, own) for i, piece in enumerate(pieces)))
        new = "\n".join(out)
        if new != text:
            with open(path, "w", encoding="utf-8") as f:
                f.write(new)
    for path in files(".edit"):
        text = read(path)
        out = []
        for line in text.split("\n"):
            m = re.match(r"(old: |new: )(.*)", line)
            out.append(m.group(1) + turn(m.group(2), set(), own) if m else line)
        new = "\n".join(out)
        if new != text:
            with open(path, "w", encoding="utf-8") as f:
                f.write(new)
    pages = ["README.md", "CHANGELOG.md"]
    for folder, dirs, names in os.walk("docs"):
        pages += [os.path.join(folder, n) for n in names if n.endswith(".md")]
    for path in pages:
        text = read(path)
        new = re.sub(r"`[^`\n]+`", lambda m: TOKEN.sub(lambda t: own.get(t.group(0), t.group(0)), m.group(0)), text)
        if new != text:
            with open(path, "w", encoding="utf-8") as f:
                f.write(new)


main()
