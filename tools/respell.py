#!/usr/bin/env python3
"""Brings the names of definitions and laws to one spelling: words in snake case, types and modules in camel case.

Run once at the top of the repository, over files that are in the new form otherwise. It reads the names that crates/*/specs
and crates/*/proofs declare, and renames them wherever they stand: there, in the clauses and comments of src/, in must-fail/
and in the pages of docs/. Functions of src/, names of the library and names that the checker makes keep their spelling.
"""
import glob
import re
import sys

NAME = r"[^\s(){}\[\];,.:λ@`\"|↦⌜⌝/=]+"
# Laws whose name would be that of the definition that they speak of.
LAWS = {
    "some-cores", "order-fits", "each-block", "lowest-bad", "body-checks", "zero-at", "host-number", "add-all", "level-line",
    "member-line", "bit-or", "in-range", "is-job", "in-sequence", "handed-back", "rows-below", "rows-placed", "passes-with",
}
# Names of the documents' cases keep their capital.
KEPT = {"K", "K4", "K5"}


def files(*patterns):
    return sorted({f for p in patterns for f in glob.glob(p, recursive=True)})


def snake(name):
    name = name.replace("′", "'").replace("·", "_").replace("-", "_")
    return re.sub(r"([a-z0-9])([A-Z])", lambda m: f"{m[1]}_{m[2]}", name).lower() if not re.match("K4", name) else name


def is_word(name):
    return name not in KEPT and re.match(r"[a-z]|K4-", name) and (re.search(r"[-′]", name) or re.search(r"[a-z0-9][A-Z]", name))


DECLARED = re.compile(rf"^(\s*)((?:pub |unfoldable |abbrev )*)({NAME})\s*:(?!:)\s*(.*)$")


def declared(path):
    """The names that a file declares, and those of its answers, which the checker names."""
    names, answers, fields = set(), set(), set()
    in_record = False
    for line in open(path, encoding="utf-8"):
        if re.match(r"\S", line):
            in_record = bool(re.match(r"(pub |abbrev )*record ", line))
        found = DECLARED.match(line)
        if not found:
            continue
        name, kind = found[3], found[4]
        if kind.startswith("tie.") or name.endswith("-spec"):
            answers.add(name)
        elif in_record and found[1]:
            fields.add(name)
        else:
            names.add(name)
    return names, answers, fields


def imported(text):
    """The names that a file takes from the library."""
    found = set()
    for module, items in re.findall(r"\buse ([^\s{;]+?)\.\{([^}]*)\}", text):
        if not OWN.match(module):
            found |= {item.split(" as ")[-1].strip() for item in items.split(",")}
    return found


CRATES = sorted(p.split("/")[1] for p in glob.glob("crates/*/"))
OWN = re.compile(r"Rattle\.(" + "|".join(CRATES) + r")\b")


def main():
    antt = files("crates/*/specs/**/*.antt", "crates/*/proofs/**/*.antt")
    names, fields, answers = set(), set(), {}
    for path in antt:
        here, made, parts = declared(path)
        names |= here
        fields |= parts
        answers[path] = made
    to = {n: snake(n) + ("_lem" if n in LAWS else "") for n in names | fields if is_word(n)}
    # What a name was called before, for pages and edits that still say it so.
    known = set(to.values()) | names
    whole = re.compile(NAME)

    def turned(text, path, prose=False):
        kept = answers.get(path, set()) | (set() if prose else imported(text))

        def one(found):
            name, before = found[0], text[max(0, found.start() - 1):found.start()]
            if name in kept or (before == "." and name not in fields):
                return name
            if name in to:
                return to[name]
            if "·" in name and re.fullmatch(r"[A-Z][a-z]+·[a-z]\w*", name):
                return snake(name)
            if re.fullmatch(r"[a-z]+Of|[a-z]+At", name) and not prose:
                return snake(name)
            if prose and is_word(name) and snake(name) in known:
                return snake(name)
            return name

        return whole.sub(one, text)

    for path in antt + files("crates/*/src/**/*.rt"):
        text = open(path, encoding="utf-8").read()
        new = turned(text, path)
        if new != text:
            open(path, "w", encoding="utf-8").write(new)
    for path in files("crates/*/must-fail/*.edit"):
        lines = open(path, encoding="utf-8").read().split("\n")
        new = [tight(turned(line, path, True)) if re.match("(old|new): ", line) else line for line in lines]
        if new != lines:
            open(path, "w", encoding="utf-8").write("\n".join(new))
    for path in files("README.md", "docs/*.md"):
        text = open(path, encoding="utf-8").read()
        new = re.sub(r"`[^`\n]+`", lambda found: turned(found[0], path, True), text)
        if new != text:
            open(path, "w", encoding="utf-8").write(new)


def tight(line):
    """A projection is written tight, and an element of a list by its new word."""
    line = re.sub(r"(?<=[\w)]) \.(?=[a-z])", ".", line)
    return re.sub(r"\bgetD\b", "get_or", line)


if __name__ == "__main__":
    sys.exit(main())
