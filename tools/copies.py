"""Copies of a crate with all that it stands on, in which `rt check` works beside this checkout, and what `rt` is to do at once."""

import os
import re
import shutil
from pathlib import Path

ROOT = Path(__file__).resolve().parent.parent


def listed():
    """{crate: (its line in crates.txt, the libraries that it names)}"""
    lines = [line.split("#")[0].strip() for line in (ROOT / "crates.txt").read_text("utf-8").splitlines()]
    return {line.split(":")[0].split()[0]: (line, line.split(":")[1].split()) for line in lines if line}


def below(crate, crates):
    """The crates of this repository that the crate stands on."""
    found = set()
    for name in crates[crate][1]:
        if name in crates:
            found |= {name} | below(name, crates)
    return found


def link(one, other):
    """Gives a file that `rt` makes a second name: it replaces such a file, and never writes into it. Others are copied."""
    try:
        if one.endswith(".oantt") or "/out/rlib/" in one:
            return os.link(one, other)
    except OSError:
        pass
    return shutil.copy2(one, other)


def copy(crate, folder, kept=True):
    """Makes a repository of the crate and what it stands on in the folder; of the libraries with what `rt` built, of the crate itself, if
    asked for, with what `rt check` kept."""
    crates = listed()
    names = below(crate, crates)
    Path(folder, "crates.txt").write_text("".join(crates[name][0] + "\n" for name in [crate, *sorted(names)]), "utf-8")
    for name in [crate, *names]:
        parts = ["src", "specs", "proofs", *(["out/rlib"] if name != crate else ["out/incremental"] if kept else [])]
        for part in parts:
            if (ROOT / "crates" / name / part).is_dir():
                shutil.copytree(ROOT / "crates" / name / part, Path(folder, "crates", name, part), copy_function=link)
    return Path(folder, "crates", crate)


def at_once():
    """How many checks run side by side: one for each processor, where memory has 3 GB for each, and four at most."""
    free = int(re.search(r"^MemAvailable: *(\d+) kB", Path("/proc/meminfo").read_text(), re.M)[1])
    return max(1, min(4, len(os.sched_getaffinity(0)), free // 3_000_000))
