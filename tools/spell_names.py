#!/usr/bin/env python3
"""Spells the repository's own definitions and lemmas as today's Rattle does, once, straight behind port.py.

usage: tools/spell_names.py            at the top: rewrites crates/ in place, and writes what it renamed to tools/spelt_names.txt
       tools/spell_names.py --check    writes nothing, and prints what it would rename and which names would fall together

Words are in snake case: allBetween becomes all_between. In a lemma's name a dash stays between two names, as in over-length; before or
behind a plain word it becomes an underscore, as in copy_done. A lemma that would have its definition's name gets _lem. Types, modules and facts keep their spelling, and so do strings, the code of
.rt files, names of Rattle's library and the names that Rattle makes for a function's proof.
"""

import collections
import os
import re
import sys

ROOT = os.path.dirname(os.path.dirname(os.path.realpath(__file__)))
WORD = r"[^\s(){}.;,@\"«»\[\]\\|]+"
TOKEN = re.compile(r"--[^\n]*|\"(?:[^\"\\\n]|\\.)*\"|«[^»]*»|" + WORD)
SIGNATURE = re.compile(r"^[ ]*(?:let )?(?:abbrev |unfoldable |pub |private )*((?:" + WORD + r" )+):(?= )", re.M)
LOWER_CAMEL = re.compile(r"^[a-z][A-Za-z0-9]*[A-Z]")
KEYWORDS = set("use pub mod record data where let in elim as open abbrev unfoldable unfolding module λ infix infixl infixr ruleset".split())
# words of Rattle's library that lemmas are named after
LIBRARY = set(
    "length take drop append set get get_or map reverse sum concat replicate zip filter add sub mul div rem not and or eq le lt leb ltb eqb"
    " nil cons suc pick fst snd max min over".split()
)

# definitions that are named as a plain word of many lemmas
PLAIN = set("is of at and no no_state one any all by in on off with some not has other each kept both most needed behind before after start next code".split())


def files(kinds):
    for folder, dirs, names in os.walk(os.path.join(ROOT, "crates")):
        dirs[:] = sorted(d for d in dirs if d != "out")
        for name in sorted(names):
            if name.endswith(kinds):
                yield os.path.join(folder, name)


def read(path):
    with open(path, encoding="utf-8") as file:
        return file.read()


def code(text):
    """An antt text with its comments and strings blanked."""
    return TOKEN.sub(lambda m: " " * len(m[0]) if m[0][:2] == "--" or m[0][:1] == '"' else m[0], text)


def snake(name):
    """Lower camel case as snake case: asPC is as_pc, callOf is call_of."""
    parts = re.sub(r"([a-z0-9])([A-Z])", r"\1 \2", name)
    parts = re.sub(r"([A-Z]+)([A-Z][a-z])", r"\1 \2", parts)
    return "_".join(part.lower() for part in parts.split(" "))


def own(path):
    return not re.search(r"/proofs/[^/]+/[^/]+\.antt$", path)


def defined():
    """The names that lemma files and specs define, in them where; those of specs apart."""
    names, words = set(), set()
    for path in files((".antt",)):
        text = code(read(path))
        for found in SIGNATURE.finditer(text):
            for name in found[1].split():
                if name in KEYWORDS or "◌" in name:
                    continue
                if own(path):
                    names.add(name)
                    if "/specs/" in path:
                        words.add(name)
                elif LOWER_CAMEL.match(name):
                    names.add(name)
        for found in re.finditer(r"λ ([^.]*)\.|\(((?:" + WORD + r" )+):|\{((?:" + WORD + r" )+):|\blet (" + WORD + r") =", text):
            for group in found.groups():
                for name in (group or "").replace("(", " ").replace(")", " ").split():
                    if LOWER_CAMEL.match(name):
                        names.add(name)
        for found in re.finditer(r"\bas (" + WORD + r")", text):
            if LOWER_CAMEL.match(found[1]):
                names.add(found[1])
    return names, words


def spelled(name, words):
    """The new spelling of a name."""
    if name.endswith("-spec"):
        return name.replace("-", "_")
    parts = [snake(part) if LOWER_CAMEL.match(part) else part for part in name.split("-")]
    if len(parts) == 1:
        return parts[0]
    # names of several words first, as over_at in over-at-put
    joined, i = [], 0
    while i < len(parts):
        for n in range(len(parts) - i, 1, -1):
            if "_".join(parts[i : i + n]) in words:
                joined.append("_".join(parts[i : i + n]))
                i += n
                break
        else:
            joined.append(parts[i])
            i += 1
    out = joined[0]
    for before, part in zip(joined, joined[1:]):
        named = all(it in words or it[:1].isupper() for it in (before, part))
        out += ("-" if named else "_") + part
    return out


def main(arguments):
    names, specs = defined()
    words = {snake(name) if LOWER_CAMEL.match(name) else name for name in specs if "-" not in name} - PLAIN | LIBRARY
    table = {name: spelled(name, words) for name in names}
    table = {old: new for old, new in table.items() if old != new}
    tokens = [set(re.findall(WORD, code(read(path)))) for path in files((".antt",))]
    # names that stand only where a pattern or an import binds them
    table |= {name: snake(name) for name in ("wrongForm", "noSystem", "noRecipe", "modbusNumber", "bankReadAs")}
    # what would have a definition's name gets _lem, where a file has both
    together = collections.defaultdict(list)
    for old in names:
        together[table.get(old, old)].append(old)
    for new, olds in sorted(together.items()):
        if len(olds) > 1:
            first = [old for old in olds if old in specs] or [old for old in olds if LOWER_CAMEL.match(old)] or sorted(olds)
            if len(first) > 1:
                print("fall together, both definitions:", new, sorted(olds))
            for old in olds:
                if old != first[0] and any(old in said and first[0] in said for said in tokens):
                    table[old] = new + "_lem"
                    if new + "_lem" in together:
                        print("fall together, with _lem too:", new, sorted(olds))
    # a definition of board and bank, beside a field of another record
    table["allValid"] = "all_valid"
    table = {old: new for old, new in table.items() if old != new}
    renamed = 0
    for path in files((".antt", ".rt")):
        text = read(path)
        new = turned(path, text, table)
        if new != text:
            renamed += 1
            if arguments != ["--check"]:
                with open(path, "w", encoding="utf-8") as file:
                    file.write(new)
    lines = [f"{old} {new}\n" for old, new in sorted(table.items())]
    if arguments == ["--check"]:
        sys.stdout.writelines(lines)
    else:
        with open(os.path.join(ROOT, "tools/spelt_names.txt"), "w", encoding="utf-8") as file:
            file.writelines(lines)
    print(f"{len(table)} names, {renamed} files")


def foreign(text):
    """The names that a file takes from Rattle's library or from what Rattle makes."""
    found = set()
    crates = os.listdir(os.path.join(ROOT, "crates"))
    for path, items in re.findall(r"\buse ([^\s{;]+)\.\{([^}]*)\}", text):
        ours = any(path.startswith(f"Rattle.{crate}.") for crate in crates) and ".declared." not in path
        if not ours:
            found |= {item.split(" as ")[0].strip() for item in items.split(",")}
    return found


def turned(path, text, table):
    """A file's text with its names spelled anew."""
    keep = foreign(text)
    function = not own(path)
    local = set()
    if function:
        for found in SIGNATURE.finditer(code(text)):
            local |= set(found[1].split())

    def one(name, before):
        if name in keep or name not in table:
            return name
        if "-" in name and (before == "." or (function and name in local and not LOWER_CAMEL.match(name))):
            # a step or a goal of a function's proof
            return name if function else table[name]
        return table[name]

    def comment(it):
        return re.sub(r"(?<![\w-])[a-z][A-Za-z0-9-]*(?![\w-])", lambda m: table.get(m[0], m[0]) if LOWER_CAMEL.match(m[0]) else m[0],
            re.sub(r"`([^`\s]+)`", lambda m: "`" + table.get(m[1], m[1]) + "`", it))

    if path.endswith(".antt"):
        def token(m):
            it = m[0]
            if it.startswith("--"):
                return comment(it)
            if it[0] == '"':
                return it
            if it[0] == "«":
                return "«" + one(it[1:-1], "") + "»"
            return one(it, text[m.start() - 1 : m.start()])
        return TOKEN.sub(token, text)
    lines = []
    for line in text.split("\n"):
        bare = line.strip()
        if bare.startswith("//"):
            lines.append(comment(line))
        elif '"' in line and not bare.startswith(("ghost", "ensures", "requires")):
            lines.append(line)
        else:
            lines.append(re.sub(r"(?<![\w\"-])[a-z][A-Za-z0-9-]*(?![\w-])", lambda m: one(m[0], ""), line))
    return "\n".join(lines)


main(sys.argv[1:])
