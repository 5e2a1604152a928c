#!/usr/bin/env python3
"""Spells the repository's own ghost names as the library spells its own: words in snake case, facts and types in camel case.
A crate that has the name of a library of the kit gets another one, too.

usage: python3 tools/snake_names.py            at the top of a repository, once, after the kit's port.py; writes in place
       python3 tools/snake_names.py --list     prints each old and new name, and names that fall together; writes nothing

Names of other crates, of Rust sources, and names that Rattle makes (goals, steps, arms) keep their spelling.
"""

import os
import re
import sys
from collections import defaultdict

STOP = set(" \t\n(){}.,;[]\"")
MADE = re.compile(r"\.(declared|contracts|Goals|Given|TheVariants|TheConstants)\b")
# where the rule would give the name of something else
SPECIAL = {
    "Every-element": "every_element",
    "If-some": "WhenSome",
    "Spot-of": "IsSpotOf",
    "Unknown-tag": "IsUnknownTag",
    "attributesOf": "attributes_of_held",
    "elementOf": "element_of_held",
    "elementsOf": "elements_of_held",
    "nodesOf": "nodes_reached",
    "rulesOf": "rules_of_held",
    "row-of": "row_at_spot",
    "lines-of": "grant_lines",
    "scope-of": "scope_by_attributes",
    "is-permit": "is_permitting",
    "fault-status": "status_of_fault",
    "has-category": "has_category_at",
    "is-resource": "is_resource_category",
    "content-of": "content_of_view",
    "call-of": "call_made",
}
# crates, and their names where the kit has a library of that name
CRATES = {"hex": "hex_text"}
# what a proof calls the record of its goal, of a loop, of a branch, and the module of goals
ROOTS = {"c", "l", "w", "goal", "g"}


def crates():
    return sorted(d for d in os.listdir("crates") if os.path.isdir(os.path.join("crates", d)))


def files(ends):
    for crate in crates():
        for folder, dirs, names in os.walk(os.path.join("crates", crate)):
            dirs[:] = sorted(d for d in dirs if d != "out")
            for name in sorted(names):
                if name.endswith(ends):
                    yield os.path.join(folder, name)


def read(path):
    with open(path, encoding="utf-8") as f:
        return f.read()


def is_old(name):
    """A word or a fact whose parts are joined by a dash, or a word with a capital inside."""
    if not re.match(r"[^\W\d]", name) or "◌" in name:
        return False
    dashed = re.search(r"[^\W_'′]['′]*-[^\W_]", name)
    return bool(dashed or re.match(r"[a-z]+[a-z0-9]*[A-Z]", name))


def turned(name):
    """Its spelling in the library's style."""
    if name in SPECIAL:
        return SPECIAL[name]
    parts = [p for p in name.split("-") if p]
    if name[0].isupper():
        return "".join(p[0].upper() + p[1:] for p in parts)
    words = []
    for p in parts:
        words += [p] if p[0].isupper() else [w.lower() for w in re.sub(r"(?<=[a-z0-9])(?=[A-Z])", " ", p).split(" ")]
    return "_".join(words)


def tokens(text, comment):
    """Pairs of a word, or another part of the text, and whether it is a word that may be renamed."""
    i, n = 0, len(text)
    while i < n:
        ch = text[i]
        if text.startswith(comment, i) and (i == 0 or text[i - 1] in " \t\n"):
            j = text.find("\n", i)
            j = n if j < 0 else j
            yield text[i:j], False
        elif ch == '"':
            j = i + 1
            while j < n and text[j] != '"':
                j += 2 if text[j] == "\\" else 1
            j = min(j + 1, n)
            yield text[i:j], False
        elif ch in STOP:
            j = i + 1
            yield ch, False
        else:
            j = i
            while j < n and text[j] not in STOP:
                j += 1
            yield text[i:j], True
        i = j


def imports(text):
    """Of each name that a file imports: whether it is made elsewhere or by Rattle. A name after `as` is the file's own."""
    own = {f"Rattle.{c}" for c in crates()}
    other = set()
    for m in re.finditer(r"(?m)^\s*(?:ghost |pub )*use ([^\s;{]+?)(?:\.\{([^}]*)\}|(?: as [^\s;]+)?)\s*;?\s*$", text):
        path, names = m.group(1), m.group(2) or ""
        mine = ".".join(path.split(".")[:2]) in own and not MADE.search(path + ".")
        for item in names.split(","):
            name = item.strip().split(" as ")[0].strip()
            if name and not mine:
                other.add(name)
    return other


def fields():
    """The labels of the repository's own records and the constructors of its types: the only names behind a dot that are turned."""
    found = set()
    for path in files(".antt"):
        indent = None
        for line in read(path).split("\n"):
            depth = len(line) - len(line.lstrip())
            if re.match(r"\s*(pub )?(record|data) .* where\s*$", line):
                indent = depth
                continue
            if line.strip() and indent is not None and depth <= indent:
                indent = None
            m = re.match(r"\s+(?:pub )?([^\s:]+) :", line)
            if indent is not None and m:
                found.add(m.group(1))
    return found


def goals(text):
    """Names that answer a goal, or choose an invariant or a measure, and those of the goals themselves."""
    return set(re.findall(r"(?m)^(?:abbrev )?pub (\S+) : goal\.", text)) | set(re.findall(r"goal\.([^\s(){},;]+)", text))


def turn(text, kind, labels, seen):
    """The text with its names turned; `kind` is the sort of file."""
    other = imports(text) | goals(text)
    made_roots = "goal." in text
    out, before, chain = [], "", []
    comment = "--" if kind == ".antt" else "//"
    in_use = False
    for word, is_word in tokens(text, comment):
        if word == "\n":
            in_use = False
        if is_word and word in ("use",):
            in_use = True
        if not is_word:
            if word.startswith(comment) and kind == ".antt":
                word = re.sub(r"[A-Z][a-z]+(?:-[a-z]+)+", lambda m: seen.get(m.group(0), m.group(0)), word)
            out.append(word)
            if word != ".":
                chain = []
            before = word
            continue
        new = word
        behind_dot = before == "."
        if not behind_dot:
            chain = []
        quoted = word.startswith("«")
        if is_old(word) and not quoted and word not in other:
            made_step = made_roots and behind_dot and chain and chain[0] in ROOTS and len(chain) == 1 and not in_use
            if in_use and behind_dot:
                made_step = True
            if behind_dot and not in_use:
                if not made_step and (word in labels or turned(word) in labels):
                    new = turned(word)
            elif not made_step:
                if kind == ".antt" or re.search(r"-", word) or word in seen:
                    new = turned(word)
        if new != word:
            seen.setdefault(word, new)
        out.append(new)
        chain.append(word)
        before = word
    return "".join(out)


def own_imports(text):
    """Names that a source file's ghost lines take from the repository's own definitions, and their names there."""
    own = {f"Rattle.{c}" for c in crates()}
    found = set()
    for m in re.finditer(r"ghost use ([^\s;{]+)\.\{([^}]*)\};", text):
        if ".".join(m.group(1).split(".")[:2]) in own and not MADE.search(m.group(1) + "."):
            for item in m.group(2).split(","):
                found |= {w.strip() for w in item.split(" as ")}
        else:
            found |= {item.split(" as ")[1].strip() for item in m.group(2).split(",") if " as " in item}
    return found


def rename_crates():
    """Renames each crate of CRATES in crates.txt, its folder, imports and paths."""
    for old, new in CRATES.items():
        if not os.path.isdir(os.path.join("crates", old)):
            continue
        os.rename(os.path.join("crates", old), os.path.join("crates", new))
        for path in ["crates.txt", *files((".antt", ".rt"))]:
            text = read(path)
            if path == "crates.txt":
                turned_text = re.sub(rf"(?m)(?<=[ \n]){old}(?=[ :\n])|^{old}(?=:)", new, text)
            else:
                turned_text = re.sub(rf"\bRattle\.{old}\b", f"Rattle.{new}", text)
                turned_text = re.sub(rf"(?m)^(\s*(?:pub )?use ){old}::", rf"\1{new}::", turned_text)
            if turned_text != text:
                with open(path, "w", encoding="utf-8") as f:
                    f.write(turned_text)


def main():
    if "--list" not in sys.argv:
        rename_crates()
    labels = fields()
    seen, new_texts = {}, {}
    for path in files(".antt"):
        turn(read(path), ".antt", labels, seen)
    for path in files(".antt"):
        new_texts[path] = turn(read(path), ".antt", labels, seen)
    for path in files(".rt"):
        text = read(path)
        mine = {w for w in own_imports(text) if is_old(w)}
        local = {w: turned(w) for w in mine}
        new_texts[path] = turn(text, ".rt", labels, local)
        seen.update({k: v for k, v in local.items() if k in mine})
    for path in files(".edit"):
        text = read(path)
        m = re.match(r"file: (\S+)", text)
        target = os.path.join(path.split("/must-fail/")[0], m.group(1)) if m else ""
        if not m or not os.path.exists(target):
            continue
        kind = ".antt" if target.endswith(".antt") else ".rt"
        other = imports(read(target))
        lines = []
        for line in text.split("\n"):
            if line.startswith(("old: ", "new: ")):
                head, body = line[:5], line[5:]
                pieces = []
                for word, is_word in tokens(body, "--" if kind == ".antt" else "//"):
                    known = is_word and word in seen and word not in other
                    pieces.append(seen[word] if known else word)
                line = head + "".join(pieces)
            lines.append(line)
        new_texts[path] = "\n".join(lines)

    # names that would fall together within one file
    for path in files((".antt", ".rt")):
        text = read(path)
        here = {w for w, is_word in tokens(text, "--" if path.endswith(".antt") else "//") if is_word}
        turned_here = defaultdict(set)
        for w in here:
            if w in seen:
                turned_here[seen[w]].add(w)
        for new, olds in turned_here.items():
            if len(olds) > 1 or new in here:
                print(f"in {path}: {', '.join(sorted(olds))} as {new}{' (taken)' if new in here else ''}", file=sys.stderr)
    together = defaultdict(set)
    for old, new in seen.items():
        together[new].add(old)
    clashes = {new: olds for new, olds in together.items() if len(olds) > 1}
    words = set()
    for path in files((".antt", ".rt")):
        words |= {w for w, is_word in tokens(read(path), "--" if path.endswith(".antt") else "//") if is_word}
    if "--list" in sys.argv:
        for old, new in sorted(seen.items()):
            print(f"{old}\t{new}\t{'TAKEN' if new in words else ''}")
    for new, olds in sorted(clashes.items()):
        print(f"fall together: {', '.join(sorted(olds))} as {new}", file=sys.stderr)
    if "--list" in sys.argv:
        return
    for path, text in new_texts.items():
        if text != read(path):
            with open(path, "w", encoding="utf-8") as f:
                f.write(text)


if __name__ == "__main__":
    main()
