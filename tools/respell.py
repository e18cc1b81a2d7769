"""Brings the names of this repository's own definitions and lemmas to the spelling of today's Rattle: words in snake case, types in
upper camel case. It reads every declaration of specs/ and of the lemma files of proofs/, makes one table of names from them, and
respells these words in every .antt, .rt and .edit file and in the backticks of the pages. Run once, right after the kit's port.py.

A dash stays only where it joins two names that stand for themselves: `flat-append` is a law of `flat` and `append`.
"""
import collections
import glob
import re
import sys

WORD = re.compile(r"[^\s(){}\[\],;.`\"'⟨⟩λ]+'*")
DECLARED = re.compile(r"^(\s*)((?:(?:pub|abbrev|unfoldable|record|data) )*)([^\s(){}:,;]+) :(?= |$)")
# Words of the library that a lemma's name may join by a dash.
LIBRARY = {"append", "cons", "drop", "get_or", "length", "map", "replicate", "set", "sets", "sum", "take"}


def declarations():
    """The names that the files of specs/ and the lemma files of proofs/ declare, each with whether it is a type."""
    found = {}
    for path in sorted(glob.glob("crates/*/specs/*.antt") + glob.glob("crates/*/proofs/*.antt")):
        lines = open(path).read().split("\n")
        for at, line in enumerate(lines):
            match = DECLARED.match(line)
            if not match or match.group(3) in {"use", "module", "where", "let", "elim", "mod", "→", "λ", "--"}:
                continue
            name = match.group(3)
            if not re.match(r"^[a-z]", name):
                continue
            said, below = line, at + 1
            while below < len(lines) and re.match(r"^\s+(→|\()", lines[below]):
                said += " " + lines[below].strip()
                below += 1
            is_type = bool(re.search(r"(:|→) Type [01]$", said.rstrip()))
            in_specs = "/specs/" in path
            found.setdefault(name, []).append((is_type, in_specs, path))
    return found


def snake(name):
    name = re.sub(r"(?<=[a-z0-9])([A-Z])", lambda m: "_" + m.group(1).lower(), name)
    return name.replace("-", "_")


def camel(name):
    return "".join(part[:1].upper() + part[1:] for part in re.split(r"[-_]", name))


def table():
    found = declarations()
    words = LIBRARY | {snake(name) for name, places in found.items() if any(p[1] and not p[0] for p in places)}
    names = {}
    for name, places in found.items():
        types = {p[0] for p in places}
        if types == {True}:
            new = camel(name)
        elif "-" in name or re.search("[a-z][A-Z]", name):
            if len(types) == 2:
                sys.exit(f"{name} is a type in one place and none in another: {places}")
            new = snake(name)
            for at in [m.start() for m in re.finditer("-", name)]:
                left, right = snake(name[:at]), snake(name[at + 1:])
                if left in words and right in LIBRARY and not any(p[1] for p in places):
                    new = left + "-" + right
        else:
            continue
        if new != name:
            names[name] = new
    together = collections.defaultdict(set)
    for name in found:
        together[names.get(name, name)].add(name)
    for new, old in together.items():
        # A lemma that would have its function's name gets `_lem`; a field of `Promised` and the lemma that fills it may share theirs.
        if len(old) > 1 and not all(any(p[2].endswith("/Promises.antt") for p in found[n]) or "-" in n for n in old):
            for name in old:
                if "-" in name:
                    names[name] = snake(name) + "_lem"
    return found, names


def main():
    found, names = table()
    back = collections.defaultdict(set)
    for name in found:
        back[names.get(name, name)].add(name)
    for new, old in sorted(back.items()):
        if len(old) > 1:
            print("falls together:", new, sorted(old), [p[2] for n in old for p in found[n]])
    if "--list" in sys.argv:
        for old, new in sorted(names.items()):
            print(old, new)
        return
    respell = lambda text, kept=(): WORD.sub(lambda m: m.group(0) if m.group(0) in kept else names.get(m.group(0), m.group(0)), text)
    ours = "|".join(sorted(re.escape(path.split("/")[1]) for path in glob.glob("crates/*/")))
    for path in sorted(glob.glob("crates/*/**/*", recursive=True)):
        if re.search(r"/out/", path) or not re.search(r"\.(antt|rt|edit)$", path):
            continue
        text = open(path).read()
        # What a file brings in from the library keeps the library's name there.
        brought = re.findall(r"^(?:ghost |pub )*use (?!Rattle\.(?:%s)\.)[\w.]+\.\{([^}]*)\}" % ours, text, re.M)
        new = respell(text, {word.strip() for names_ in brought for word in names_.split(",")})
        if new != text:
            open(path, "w").write(new)
    for path in ["README.md"] + sorted(glob.glob("docs/*.md")):
        text = open(path).read()
        new = re.sub(r"`[^`\n]+`", lambda m: respell(m.group(0)), text)
        if new != text:
            open(path, "w").write(new)


main()
