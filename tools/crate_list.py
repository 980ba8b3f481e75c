"""The crates of crates.txt, for the scripts that read it."""

from pathlib import Path

CRATES = Path(__file__).resolve().parent.parent / "crates.txt"


def libraries():
    """Returns the repository's crates by name, in the order of crates.txt, each with those of them that it uses."""
    found = {}
    for line in CRATES.read_text().splitlines():
        head, _, uses = line.partition("#")[0].partition(":")
        if head.strip():
            found[head.split()[0]] = uses.split()
    return {name: [it for it in uses if it in found] for name, uses in found.items()}
