"""Spells the names of goals and steps in proof files as today's Rattle does: a dash joins parts, and each part keeps the spelling of the source.

Run once at the top of a checkout, after tools/respell.py: python3 tools/respell_goals.py.
"""
import glob
import re

WORD = r"[\w'\-]"
RULES = [
    (r"invariant-of-", "invariant_of-"),
    (r"overflow-(add|sub|mul|shl|shr|cast|step)-", r"overflow_\1-"),
    (r"nonzero-(div|rem)-", r"nonzero_\1-"),
    (r"slice-bounds-", "slice_bounds-"),
    (r"offset-bounds-", "offset_bounds-"),
    (r"\bfrom-residual\b", "from_residual"),
    (r"\binto-iter-gives\b", "into_iter_gives"),
    (r"\binto-iter\b", "into_iter"),
    (r"\btype-inv\b", "type_inv"),
    (r"\bin-default\b", "in_default"),
    (r"\bin-(ok|err)-", r"in_\1-"),
    (r"\bin-(ok|err)\b", r"in_\1"),
]


def source_names(crate):
    """The names with an underscore that a crate's code has, the longest first."""
    found = set()
    for path in glob.glob(f"{crate}/src/*.rt"):
        code = [line.split("//")[0] for line in open(path) if not re.match(r"\s*(ghost|requires|ensures)\b", line)]
        found.update(re.findall(r"\b[a-z][a-z0-9]*(?:_[a-z0-9]+)+\b", "".join(code)))
    return sorted(found, key=len, reverse=True)


def main():
    for crate in sorted(glob.glob("crates/*")):
        names = source_names(crate)
        for path in glob.glob(f"{crate}/proofs/**/*.antt", recursive=True):
            if not path.endswith(("Answers.antt", "Invariants.antt", "Proof.antt")):
                continue
            text = new = open(path).read()
            for old, spelled in RULES:
                new = re.sub(old, spelled, new)
            for name in names:
                dashed = name.replace("_", "-")
                if dashed in new:
                    new = re.sub(r"(?<![\w'])" + dashed + r"(?![\w'])", name, new)
            if new != text:
                open(path, "w").write(new)


main()
