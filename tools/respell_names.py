#!/usr/bin/env python3
"""Spells the repository's own words of antt in snake case, as `bodyOf` and `word-past` to `body_of` and `word_past`.

usage: python3 tools/respell_names.py          at the top of the repository: rewrites the files below crates/
       python3 tools/respell_names.py --list   prints old and new names alone, and those that fall together

Types and modules keep their names, and so do the names of libraries, of what Rattle makes, and of functions, types, fields and constants of src/.
"""

import os
import re
import sys

NAME = r'[^\s(){}.;,@"«»]+'
WORD = re.compile(NAME)
QUIET = re.compile(r'"(?:[^"\\\n]|\\.)*"|(?<![^\s(){}.;,@"«»])--[^\n]*|\{-.*?-\}', re.S)
TOP = re.compile(rf"(?m)^ *(?:(?:pub|abbrev|unfoldable) +)*(?:(?:data|record) +)?({NAME})(?: +[({{][^\n]*?[)}}])* +:(?= )")
CASE = re.compile(rf"(?m)^ +(?:\| *)?(?:pub +)?({NAME}(?: +{NAME})*) +:(?= )")
USE = re.compile(r"\buse ([^\s;{]+?)(?:\.\{([^;}]*)\})?(?=[\s;]|$)", re.S)
GHOST_USE = re.compile(r"ghost\s+use\b[^;]*;")
CLAUSE = re.compile(r"(?:requires|ensures)\s*\*?\s*(?:\w+\s*)?\{|ghost\s*(?:\w+\s*(?::\s*|=\s*))\{")
SPAN = re.compile(r"`[^`\n]+`")
PAGES = ["README.md", "docs/DECISIONS.md", "docs/FORMAT.md", "docs/RULED_OUT.md"]
KIT = "/opt/rattle/rattle"

# A law that would be spelled like the definition that it is about ends in `_law`; these had that spelling before, in the files named.
LAWS = {
    "crates/canonical_writer/": "run_end",
    "crates/laws/proofs/Arguments.antt": "out_of_range",
    "crates/lent_rule/proofs/CellWrites.antt": "cells_over",
    "crates/sheet_rules/proofs/names/names_at/": "out_of_range",
    "crates/typed_sheets/proofs/SameTrees.antt": "same_place",
}
APART = {"clause-list": "clause_list_law", "field-words": "field_words_law"}


def snake(name):
    words = re.sub(r"(?<=[a-z0-9])[A-Z]", lambda m: "_" + m[0].lower(), name)
    words = re.sub(r"(?<=[A-Za-z0-9_'?])-(?=[A-Za-z0-9_])", "_", words)
    return words


def turned(name):
    return APART.get(name) or snake(name)


def is_word(name):
    core = name.strip("◌")
    return core[:1].islower() and (re.search(r"[a-z0-9][A-Z]", core) or re.search(r"[A-Za-z0-9'?]-[A-Za-z0-9]", core)) is not None


def read(path):
    with open(path, encoding="utf-8") as f:
        return f.read()


def files(top, ending):
    for folder, dirs, names in os.walk(top):
        dirs[:] = sorted(d for d in dirs if d not in ("out", ".git", "target"))
        for n in sorted(names):
            if n.endswith(ending):
                yield os.path.join(folder, n)


def is_walk(path):
    """A proof that walks the code: its words are mostly labels that Rattle makes."""
    return re.search(r"/proofs/.*(/Proof\.antt|/Proof/[^/]+\.antt)$", path) is not None


def imports(code, yours):
    """The names that a text takes from the repository, and those that it takes from elsewhere."""
    own, other = set(), set()
    for path, items in USE.findall(code):
        steps = path.split(".")
        names = set()
        for item in (items or "").split(","):
            words = item.split()
            names.update(w.strip("«»") for w in words if w != "as")
        is_own = steps[0] == "Rattle" and len(steps) > 1 and steps[1] in yours
        (own if is_own else other).update(names)
    return own, other


def quietly(text, change, quiet=QUIET):
    """Applies change to the code of a text, and to what its comments have in camel case."""
    out, at = [], 0
    for m in quiet.finditer(text):
        out.append(rewrite(text, at, m.start(), change, False))
        out.append(rewrite(text, m.start(), m.end(), change, True) if m[0].startswith(("--", "{-")) else m[0])
        at = m.end()
    out.append(rewrite(text, at, len(text), change, False))
    return "".join(out)


def rewrite(text, start, end, change, comment):
    out, at = [], start
    for w in WORD.finditer(text, start, end):
        out.append(text[at : w.start()])
        out.append(change(w[0], text[w.start() - 1 : w.start()], comment))
        at = w.end()
    out.append(text[at:end])
    return "".join(out)


def commented(text, change):
    """Turns camel case in the comments of a source."""
    return re.sub(r"//[^\n]*", lambda m: rewrite(m[0], 0, len(m[0]), change, True), text)


def main():
    crates = [c for c in sorted(os.listdir("crates")) if os.path.isdir(os.path.join("crates", c))]
    yours = set(crates)
    declared, fields = set(), set()
    texts = {p: read(p) for p in files("crates", ".antt")}
    sources = {p: read(p) for p in files("crates", ".rt")}
    for p, t in texts.items():
        code = QUIET.sub(" ", t)
        for n in TOP.findall(code):
            if not is_walk(p):
                declared.add(n.strip("◌"))
        for group in CASE.findall(code):
            if not is_walk(p):
                declared.update(n.strip("◌") for n in group.split())
    plain = {n for n in declared if not is_word(n)}
    declared = {n for n in declared if is_word(n)}
    spelled = {}
    for n in declared | plain:
        spelled.setdefault(snake(n), set()).add(n)
    for n in declared:
        if "-" in n and len(spelled[snake(n)]) > 1:
            APART[n] = snake(n) + "_law"
    library = set()
    for p in files(KIT, ".antt"):
        library.update(WORD.findall(QUIET.sub(" ", read(p))))
    rust = set()
    for t in sources.values():
        rust.update(re.findall(r"\w+", re.sub(r"//[^\n]*", " ", GHOST_USE.sub(" ", t))))
    kebab = {n.replace("_", "-") for n in rust if "_" in n}

    def turns(name, own, other, comment, walk, before):
        core = name.strip("◌")
        if not is_word(core):
            return False
        if comment:
            return core in declared and re.search(r"[a-z][A-Z]", core) is not None
        if core in other or name in other:
            return False
        if walk:
            if core in own or name in own:
                return True
            return before == "." and core in declared and core not in kebab and core not in library
        return core in declared or core not in library

    def change_of(own, other, walk, law=None):
        def change(name, before, comment):
            if name == law and not comment:
                return name + "_law"
            bare = name.strip("`:'\"") if comment else name
            if not turns(bare, own, other, comment, walk, before):
                return name
            core = bare.strip("◌")
            return name.replace(core, turned(core))

        return change

    new = {}
    for p, t in texts.items():
        own, other = imports(QUIET.sub(" ", t), yours)
        law = [n for start, n in LAWS.items() if p.startswith(start)]
        new[p] = quietly(t, change_of(own, other, is_walk(p), law[0] if law else None))
    for p, t in sources.items():
        own, other = imports(" ".join(GHOST_USE.findall(t)), yours)
        change = change_of(own, other, True)
        out, at = [], 0
        spans = [(m.start(), m.end()) for m in GHOST_USE.finditer(t)]
        for m in CLAUSE.finditer(t):
            depth, i = 1, m.end()
            while depth and i < len(t):
                depth += {"{": 1, "}": -1}.get(t[i], 0)
                i += 1
            spans.append((m.end(), i))
        for a, b in sorted(spans):
            if a < at:
                continue
            out.append(commented(t[at:a], change))
            out.append(rewrite(t, a, b, change, False))
            at = b
        out.append(commented(t[at:], change))
        new[p] = "".join(out)
    for p in PAGES:
        texts[p] = read(p)
        new[p] = SPAN.sub(lambda m: WORD.sub(lambda w: turned(w[0]) if w[0] in declared else w[0], m[0]), texts[p])
    if "--list" in sys.argv:
        together = {}
        for p, t in {**texts, **sources}.items():
            if p in PAGES:
                continue
            before, after = WORD.findall(QUIET.sub(" ", t)), WORD.findall(QUIET.sub(" ", new[p]))
            assert len(before) == len(after), p
            seen = {}
            for a, b in zip(before, after):
                seen.setdefault(b, set()).add(a)
            for b, olds in seen.items():
                if len(olds) > 1:
                    together.setdefault(b, {}).setdefault(tuple(sorted(olds)), []).append(p)
        for b in sorted(together):
            for olds, where in together[b].items():
                print("together:", b, olds, len(where), where[0])
        for n in sorted(declared):
            print(n, turned(n))
        return
    for p, t in new.items():
        if t != (texts.get(p) or sources.get(p)):
            with open(p, "w", encoding="utf-8") as f:
                f.write(t)


if __name__ == "__main__":
    main()
