#!/usr/bin/env python3
# Cuts docs/CONTRACTS.md from the head comments of the crates, by the rooms of docs/LAYERS.md.
# To be run at the top of the repository, after a head comment or the map has changed.
import re
import sys
from pathlib import Path


def paragraphs(crate):
    source = Path("crates", crate, "src")
    file = next(f for f in (source / "lib.rt", source / "main.rt") if f.exists())
    head = re.match(r"(//!.*\n)*", file.read_text()).group()
    text = re.sub(r"^//! ?", "", head, flags=re.M).strip()
    return [re.sub(r"\[(`[^`]*`)\]", r"\1", " ".join(p.split())) for p in text.split("\n\n")]


out = [
    "# Contracts",
    "What a caller may rely on, crate by crate, in the rooms of `docs/LAYERS.md`. This page is cut from the head"
    " comments of the crates by `bench/contracts.py`; where it and a contract differ, the contract is right. Every"
    " function is safe and returns, which is said here once.",
]
seen = set()
for room in re.split(r"^### ", Path("docs/LAYERS.md").read_text(), flags=re.M)[1:]:
    out.append("## " + room.split("\n")[0])
    for crate in re.findall(r"^\| `(\w+)` \|", room, flags=re.M):
        seen.add(crate)
        out += [f"### {crate}"] + paragraphs(crate)

missing = {path.name for path in Path("crates").iterdir()} ^ seen
if missing:
    sys.exit(f"in the map or in crates/ alone: {', '.join(sorted(missing))}")
for text in out:
    if len(text.split()) > 60:
        print(f"over 60 words: {text[:70]}", file=sys.stderr)
Path("docs/CONTRACTS.md").write_text("\n\n".join(out) + "\n")
