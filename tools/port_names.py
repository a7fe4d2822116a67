#!/usr/bin/env python3
"""port_names.py: brings the names of this repository's definitions and lemmas to one spelling, run once at the top,
behind the kit's own script.

Types and modules are in upper camel case, everything else that specs/ and proofs/ declare is in snake case: so
`host-of` becomes `host_of`, and `Reads-back` becomes `ReadsBack`. Only names that a file of specs/ or proofs/
declares are touched, and of those only the ones with a dash; the goals of a function, which Rattle names, and the
library's names stay. An import under another name, as `worth as worthOf`, takes a name in snake case too. Where two
names would fall together, the script says so and changes nothing.
"""
import collections, pathlib, re, sys

NAME = r"[^\s(){}\[\],.;:λ→≡∷+*=]+"
TOKEN = re.compile(r"(?<![^\s(){}\[\],.;:])" + NAME + r"(?![^\s(){}\[\],.;:])")
DECLARED = re.compile(r"^(?:abbrev |unfoldable )?(?:pub )?(?:abbrev |unfoldable )?(?:record |data )?(" + NAME + r")(?: .*)? :(?: |$)")
FIELD = re.compile(r"^ +(?:pub )?(" + NAME + r") : ")
ALIAS = re.compile(r" as ([a-z]+[A-Z][A-Za-z]*)(?=[,}])")
GOAL = re.compile(r" : (?:goal|need|choice)\.")


def goal_names(lines):
    return {line.split(" : ")[0].split()[-1] for line in lines if GOAL.search(line)}


def declared(path):
    """The names that the file declares, but for the goals that it answers."""
    lines = path.read_text().splitlines()
    answered, names = goal_names(lines), set()
    for line in lines:
        if line.startswith("--") or line.startswith("use "):
            continue
        found = DECLARED.match(line) or FIELD.match(line)
        if found and found[1] not in answered:
            names.add(found[1])
    return names


def spelled(name):
    """A name in the one spelling."""
    if name[0].isupper():
        head, *rest = name.split("-")
        return head + "".join(r[:1].upper() + r[1:] for r in rest)
    return name.replace("-", "_")


def main():
    root = pathlib.Path.cwd() / "crates"
    files = sorted(p for p in root.rglob("*") if p.suffix in (".antt", ".rt") and "out" not in p.relative_to(root).parts)
    antt = [p for p in files if p.suffix == ".antt"]
    own = {name for p in antt for name in declared(p)}
    words = {name: spelled(name) for name in own if "-" in name.strip("-") and re.fullmatch(r"[A-Za-z][\w'₀-₉-]*", name)}
    clashes = collections.defaultdict(set)
    for name, new in words.items():
        clashes[new].add(name)
        if new in own:
            clashes[new].add(new)
    together = {new: names for new, names in clashes.items() if len(names) > 1}
    if together:
        sys.exit(f"names fall together: {together}")
    word = re.compile(r"(?<![\w'·-])(" + "|".join(sorted(map(re.escape, words), key=len, reverse=True)) + r")(?![\w'·-])")
    goals = {p: goal_names(p.read_text().splitlines()) for p in antt}
    changed = {}
    for p in files:
        text = p.read_text()
        # A name of a goal that reads as one of ours stays, where the file answers it or cites a step by it.
        new = word.sub(lambda m: m[1] if m[1] in goals.get(p, ()) else words[m[1]], text)
        for alias in set(ALIAS.findall(new)):
            snake = re.sub(r"[A-Z]", lambda m: "_" + m[0].lower(), alias)
            if re.search(rf"\b{snake}\b", new):
                sys.exit(f"{p}: {alias} falls together with {snake}")
            new = re.sub(rf"\b{alias}\b", snake, new)
        if new != text:
            changed[p] = new
    for p, new in changed.items():
        p.write_text(new)
    for name in sorted(words):
        print(f"{name} {words[name]}")
    print(f"{len(words)} names, {len(changed)} files", file=sys.stderr)


main()
