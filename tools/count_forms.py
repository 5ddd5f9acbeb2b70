#!/usr/bin/env python3
"""Lists the places of the forms of an older language in src/, by the points of docs/DESIGN-PASS.md.

  python3 tools/count_forms.py           of the working tree
  python3 tools/count_forms.py COMMIT    of a commit
  python3 tools/count_forms.py -v ..     each place, and not the counts alone

What it goes by is said before each count. It finds by the text: a place that is kept with its reason is found again.
"""
import collections
import pathlib
import re
import subprocess
import sys

ROOT = pathlib.Path(__file__).resolve().parent.parent
# Words of an answer that gives no value.
REFUSING = re.compile(r"Nothing|Refus|Silent|Malformed|Outside|Out$|Cut|Short|Invalid|NoRoom|Stop|Refuted|NotJudged|^No$|TextLength|TextByte|OtherUnit")


def sources(commit):
    """The text of each file of src/, by its path."""
    if commit is None:
        return {str(p.relative_to(ROOT)): p.read_text() for p in sorted(ROOT.glob("crates/*/src/*.rt"))}
    names = subprocess.run(["git", "ls-tree", "-r", "--name-only", commit, "crates"], cwd=ROOT, capture_output=True, text=True, check=True)
    names = [n for n in names.stdout.split() if re.fullmatch(r"crates/\w+/src/\w+\.rt", n)]
    return {n: subprocess.run(["git", "show", f"{commit}:{n}"], cwd=ROOT, capture_output=True, text=True, check=True).stdout for n in names}


def proofs(commit):
    """The text of each file of answers, by its path."""
    if commit is None:
        return {str(p.relative_to(ROOT)): p.read_text() for p in sorted(ROOT.glob("crates/*/proofs/**/Answers.antt"))}
    names = subprocess.run(["git", "ls-tree", "-r", "--name-only", commit, "crates"], cwd=ROOT, capture_output=True, text=True, check=True)
    names = [n for n in names.stdout.split() if re.fullmatch(r"crates/\w+/proofs/.*Answers\.antt", n)]
    return {n: subprocess.run(["git", "show", f"{commit}:{n}"], cwd=ROOT, capture_output=True, text=True, check=True).stdout for n in names}


def plain(text):
    """The text without comments, its lines kept."""
    return re.sub(r"//[^\n]*", "", text)


def crate(path):
    return path.split("/")[1]


def at(path, text, place):
    """A place in a file's text, or in what is left of it without comments."""
    return f"{path}:{text.count(chr(10), 0, place) + 1}"


def items(files, word):
    """Each struct or enum: where it stands, its name and its body."""
    for path, raw in files.items():
        text = plain(raw)
        for it in re.finditer(rf"\b{word} (\w+)(?:<[^>]*>)? \{{(.*?)\n\}}", text, re.S):
            yield at(path, text, it.start()), crate(path), it[1], it[2]


def functions(files):
    """Each function: where, crate, name, parameters, result, clauses, body."""
    head = re.compile(r'^([ \t]*)(?:pub )?(?:extern "C" )?fn (\w+)(?:<[^>]*>)?\((.*?)\)(?: -> ([^\n{]+?))?\s*\n?(?=[ \t]*(?:requires|ensures|ghost|\{))', re.M | re.S)
    for path, raw in files.items():
        text = plain(raw)
        for it in head.finditer(text):
            end = re.compile(rf"^{it[1]}\}}", re.M).search(text, it.end())
            rest = text[it.end() : end.end() if end else None]
            cut = re.search(r"^[ \t]*\{\n", rest, re.M)
            clauses, body = (rest[: cut.start()], rest[cut.start() :]) if cut else ("", rest)
            yield at(path, text, it.start()), crate(path), it[2], it[3], (it[4] or "").strip(), clauses, body


def answers(files):
    """1: enums of which a variant refuses or gives nothing and another does not."""
    for where, name_of, name, body in items(files, "enum"):
        variants = re.findall(r"^\s*(\w+)(\([^)]*\))?,", body, re.M)
        refusing = [v for v, _ in variants if REFUSING.search(v)]
        if refusing and len(refusing) < len(variants) and any(data for _, data in variants):
            yield f"{where} {name} {{ {', '.join(v + d for v, d in variants)} }}"


def beside(files):
    """1: structs that hold an answer, or whether there is a value, beside it."""
    for where, _, name, body in items(files, "struct"):
        fields = re.findall(r"^\s*(?:pub )?(\w+):", body, re.M)
        if len(fields) > 1 and {"answer", "told", "alive", "why"} & set(fields):
            yield f"{where} {name} {{ {', '.join(fields)} }}"


def numbered(files):
    """1: constants that number phases, versions, codes of letters, functions, kinds and events."""
    kinds = re.compile(
        r"^(?:pub )?const (IDLE|SET|RUNNING|STOPPED|DONE|WITHOUT_ALARMS|UNKNOWN|VERSION|LAST_KIND|LAST_EVENT|NOT_BEGUN|FIRST|LAST|ENDED|READ|WRITE|[A-Z]{2}): (?:u8|u16|u32) =",
        re.M,
    )
    for path, text in files.items():
        for it in kinds.finditer(text):
            yield f"{at(path, text, it.start())} {it[1]}"


def same_fields(files):
    """2: structs and enums with the fields or variants of another."""
    seen = collections.defaultdict(list)
    for word in ("struct", "enum"):
        for where, _, name, body in items(files, word):
            names = re.findall(r"^\s*(?:pub )?(\w+)[:(,]", body, re.M)
            seen[word, tuple(names)].append(f"{where} {name}")
    for (word, names), places in seen.items():
        if len(places) > 1:
            for place in places:
                yield f"{place} {{ {', '.join(names)} }}"


def same_functions(files):
    """2: functions of one name and one body but for names, types and numbers, and those for a bank beside those without."""
    seen = collections.defaultdict(list)
    names = set()
    found = list(functions(files))
    for _, name_of, name, *_ in found:
        names.add((name_of, name))
    for where, name_of, name, _, _, _, body in found:
        shape = re.sub(r"\b(?!if|else|match|while|for|loop|return|let|mut)\w+\b", "_", re.sub(r"\s+", "", body))
        seen[shape].append(f"{where} {name}")
        other = name.replace("banked_", "").replace("_banked", "")
        if other != name and (name_of, other) in names:
            yield f"{where} {name} (beside {other})"
    for shape, places in seen.items():
        if len(places) > 1 and len(shape) > 60:
            yield "; ".join(places)


def loops(files):
    """3: `while` and `loop`."""
    for path, raw in files.items():
        text = plain(raw)
        for it in re.finditer(r"^[ \t]*(?:let \w+ = )?(?:'\w+: )?(?:\w+ = )?(while|loop)\b[^\n]*", text, re.M):
            yield f"{at(path, text, it.start())} {it[0].strip()}"


def conversions(files):
    """4: functions that only turn a value into another type: a cast, a number for each case, or a case for each number."""
    for where, _, name, _, result, _, body in functions(files):
        inside = re.sub(r"\s+", " ", body.strip()[1:-1]).strip()
        number_for_case = re.fullmatch(r"match \w+ \{ (?:(?:\w+::)+\w+(?:\(\w*\))? => [\w:]+, )+\}", inside)
        case_for_number = re.fullmatch(r"match \w+ \{ (?:[\w]+ => (?:\w+::)+\w+(?:\(\w*\))?, )+\}", inside)
        cast = re.fullmatch(r"\w+ as \w+", inside)
        of_flag = re.fullmatch(r"if \w+ \{ return 1; \} 0", inside)
        if cast or of_flag or (number_for_case and re.fullmatch(r"u\d+|usize", result)) or (case_for_number and not result.startswith("u")):
            yield f"{where} {name}"


def compared(files):
    """4: equality by a loop, and enums compared by their numbers."""
    for where, _, name, _, result, _, body in functions(files):
        if result == "bool" and re.search(r"while [^{]*\{\s*if \w+\[\w+\] != \w+\[\w+\]", body):
            yield f"{where} {name}"
        if re.search(r"phase_number\(\w+\) ==|is_among\([^)]*phase|p == [A-Z]+", body):
            yield f"{where} {name} (phases by number)"


def facts(files):
    """5: a conjunct of `requires` that stands in three functions or more of one crate."""
    seen = collections.defaultdict(set)
    for where, name_of, name, _, _, clauses, _ in functions(files):
        for clause in re.findall(r"requires \w*\s*\{(.*?)\}\s*$", clauses, re.M):
            for fact in re.split(r"×", clause):
                fact = re.sub(r"^[\s(]+|[\s)]+$", "", fact)
                fact = re.sub(r"\+ \w[\w.]*(?: \w+)* ≤ length (\w+)\.old", r"+ .. ≤ length \1.old", fact)
                seen[name_of, fact].add(f"{where} {name}")
    for (name_of, fact), places in sorted(seen.items()):
        if len(places) > 2:
            yield f"{name_of}: {fact}: {len(places)} functions ({', '.join(p.split()[-1] for p in sorted(places))})"


def together(files):
    """5: two parameters that three functions or more of one crate have, and no function of it has one of them alone."""
    seen = collections.defaultdict(set)
    for where, name_of, name, parameters, *_ in functions(files):
        named = sorted(set(re.findall(r"(\w+): &?(?:mut )?[\w:\[\]]+", parameters)))
        for i, one in enumerate(named):
            seen[name_of, one].add(name)
            for two in named[i + 1 :]:
                seen[name_of, one, two].add(name)
    for key, names in sorted(seen.items()):
        if len(key) == 3 and len(names) > 2 and names == seen[key[0], key[1]] == seen[key[0], key[2]]:
            yield f"{key[0]}: {key[1]}, {key[2]}: {len(names)} functions ({', '.join(sorted(names))})"


def beside_buffers(files):
    """6: an array with a count beside it in a struct, two arrays in a struct, slices of one length as parameters, a place beside a buffer."""
    for where, _, name, body in items(files, "struct"):
        arrays = re.findall(r"(\w+): \[", body)
        counts = re.findall(r"(count|length|at): usize", body)
        if arrays and (counts or len(arrays) > 1):
            yield f"{where} {name} {{ {', '.join(counts + arrays)} }}"
    for where, _, name, parameters, *_ in functions(files):
        if re.search(r"\bat: usize,\s*out: &mut \[u8\]", parameters):
            yield f"{where} {name} (at, out)"
        if len(re.findall(r"\w+: &\[u32\]", parameters)) > 1:
            yield f"{where} {name} (several slices)"


def steps(files):
    """7: a `match` on the number of a step or an event, and types of functions."""
    for path, raw in files.items():
        text = plain(raw)
        for it in re.finditer(r"match (?:step|event) \{|: fn\(|\bdyn ", text):
            yield f"{at(path, text, it.start())} {it[0]}"


def needless(files):
    """8: answers that only say `search rules`."""
    for path, text in files.items():
        for it in re.finditer(r"^\S+(?: \S+)* = (?:search rules|\(search rules(?:, search rules)*\))$", text, re.M):
            yield f"{at(path, text, it.start())} {it[0].split()[0]}"


def main():
    words = [w for w in sys.argv[1:] if w != "-v"]
    commit = words[0] if words else None
    files = sources(commit)
    every = [answers, beside, numbered, same_fields, same_functions, loops, conversions, compared, facts, together, beside_buffers, steps]
    for of in every + [needless]:
        places = list(of(proofs(commit) if of is needless else files))
        print(f"{of.__doc__.split(chr(10))[0]} {len(places)}")
        if "-v" in sys.argv:
            for place in places:
                print("   ", place)


if __name__ == "__main__":
    main()
