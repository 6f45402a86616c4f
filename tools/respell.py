"""Spells the repository's definitions and lemmas as today's Rattle does: words in snake case, types in camel case.

Run once at the top of a checkout, after the kit's port.py: python3 tools/respell.py. It turns the names that specs/ and proofs/ declare (goals keep
theirs), wherever ghost text says them. Functions of src/, strings and comments stay, but for names in backticks. Where a file of src/ has a
function of the same name in sight, the definition comes in as `defined_NAME`.
"""
import glob
import re
import sys

WORD = r"[\w'\-]"
NAME = r"[A-Za-z_][\w'\-]*"
DECLARED = re.compile(r"^\s*(?:abbrev |pub |unfoldable |data |record )*(" + NAME + r")(?: \([^)]*\)| \{[^}]*\})*((?: " + NAME + r")*) :(?: |$)")
ALIAS = re.compile(r"\bas (" + NAME + ")")
GOAL_FILES = ("Answers.antt", "Invariants.antt")
# what Answers.antt files declare beside their goals
HELPERS = """count-in ends-best made-lists none-long open-under opening-under refusal-some reversed-push same-market same-plan same-settled
sizes-more slip-after standing-more stop-number ticket-number ticket-of ticket-said""".split()


def files(*endings):
    found = glob.glob("crates/**/*", recursive=True)
    return sorted(f for f in found if f.endswith(endings) and "/out/" not in f)


def declared():
    """The names to be respelled, each with its new spelling."""
    names = set(HELPERS)
    for path in files(".antt", ".rt"):
        for line in open(path):
            if path.endswith(".antt") and not path.endswith(GOAL_FILES):
                found = DECLARED.match(line)
                if found:
                    names.update([found.group(1)] + found.group(2).split())
                names.update(re.findall(r"^(?:pub )?record (" + NAME + ")", line))
            if "use " in line:
                names.update(ALIAS.findall(line))
    return {name: respelled(name) for name in names if "-" in name or name[0].isupper() and "_" in name}


def respelled(name):
    if name[0].isupper():
        return "".join(part[0].upper() + part[1:] for part in re.split("[-_]", name) if part)
    return name.replace("-", "_")


def pieces(line, path):
    """A line as (text, is it to be turned) pairs: code, and in comments what stands in backticks."""
    mark = "//" if path.endswith((".rt", ".edit")) else "--"
    code, comment = line, ""
    at = -1
    quoted = False
    for place, letter in enumerate(line):
        if letter == '"' and path.endswith(".rt"):
            quoted = not quoted
        if not quoted and line.startswith(mark, place):
            at = place
            break
    if path.endswith(".md"):
        at = 0
    if at >= 0:
        code, comment = line[:at], line[at:]
    for number, part in enumerate(re.split(r'("[^"]*")', code) if path.endswith(".rt") else [code]):
        yield part, number % 2 == 0
    for number, part in enumerate(re.split(r"(`[^`]*`)", comment)):
        yield part, number % 2 == 1


def turned(text, names, pattern):
    return pattern.sub(lambda found: names[found.group(0)], text)


def turn(path, names, pattern):
    lines = open(path).read().split("\n")
    new = ["".join(turned(part, names, pattern) if use else part for part, use in pieces(line, path)) for line in lines]
    if path.endswith(".rt"):
        new = apart(new)
    if new != lines:
        open(path, "w").write("\n".join(new))


def apart(lines):
    """Imports of ghost names that are also the name of a function in sight come in under a name of their own."""
    text = "\n".join(lines)
    rust = "\n".join(line for line in lines if not line.startswith("ghost use"))
    seen = set(re.findall(r"\bfn (\w+)", rust))
    for item in re.findall(r"^use ([^;]*);", rust, re.M):
        seen.update(re.findall(r"(\w+)\s*(?:,|\}|$)", item))
    clash = set()
    for line in lines:
        if line.startswith("ghost use"):
            names = re.search(r"\{(.*)\}", line)
            for name in names.group(1).split(", ") if names else []:
                if name in seen and name in RENAMED:
                    clash.add(name)
    out = []
    for line in lines:
        for name in clash:
            if line.startswith("ghost use"):
                line = re.sub(r"(?<=[{ ])" + name + r"(?=[,}])", name + " as defined_" + name, line)
            elif re.match(r"\s*(requires|ensures|ghost|let |//)?", line) and ghost(line):
                line = re.sub(r"(?<!" + WORD + r")(?<!\.)" + name + r"(?!" + WORD + r")(?!\()", "defined_" + name, line)
        out.append(line)
    return out


def ghost(line):
    """Is the line a clause or a ghost item?"""
    return re.match(r"\s*(requires|ensures|ghost)\b", line) is not None


RENAMED = set()


def main():
    names = declared()
    RENAMED.update(names.values())
    spelled = sorted(names, key=len, reverse=True)
    pattern = re.compile(r"(?<!" + WORD + r")(?:" + "|".join(re.escape(name) for name in spelled) + r")(?!" + WORD + r")")
    fallen = {}
    for name, new in names.items():
        fallen.setdefault(new, []).append(name)
    for new, old in fallen.items():
        if len(old) > 1:
            sys.exit(f"names fall together: {old}")
    for path in files(".antt", ".rt", ".edit") + ["README.md"] + sorted(glob.glob("docs/*.md")):
        turn(path, names, pattern)
    print(f"{len(names)} names")


main()
