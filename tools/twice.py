#!/usr/bin/env python3
"""Counts, over the whole checkout, what stands more than once and what is past a measure.

usage: tools/twice.py [--list]

One line each: lemma statements that stand in two or more files (the names of a lemma and of its variables do not count), words of
specs/ defined in two or more crates, those of them of which one crate uses two (its own among them), functions with more than six
parameters apart from public ones, clauses with a line of more than 100 columns, clauses of more than 300 characters, functions of
more than 40 lines without their clauses, and definitions of specs/ without a comment above. With --list what is counted follows each
line.
"""
import collections
import re
import sys

sys.dont_write_bytecode = True

import shape

DEFINED = re.compile(r"^( *)(?:abbrev pub|pub|pub record|pub data|abbrev pub record|abbrev pub data) ([^\W\d][\w'-]*)(?= [:(])")
STATED = re.compile(r"^(?:pub )?([^\s:(){}]+) : (.*)$")
USED = re.compile(r"^\s*(?:pub |ghost )*use Rattle\.(\w+)\.specs\.([\w.]+?)(?:\.\{([^}]*)\}| as (\w+));?\s*$")
OWN = re.compile(r"^ *(?:pub )?(?:abbrev (?:pub )?|record |data )([^\W\d][^\s:(){}]*)(?= [:(])")
BOUND = re.compile(r"[({]([^(){}:]+) : |λ ([^\s.(]+)")
PLAIN = {"Type", "Unit", "List", "Option", "Result", "Bool", "Cond", "Conds", "Plan", "Path", "Query", "Token", "Code", "Fault"}


def texts(part):
    """The files of proofs/ or specs/ of each crate, by crate and with their lines."""
    for folder in sorted((shape.ROOT / "crates").iterdir()):
        for file in sorted(folder.glob(f"{part}/**/*.antt")):
            yield folder.name, file, file.read_text().splitlines()


def statements(lines):
    """The names and types that a file declares at its margin, a type in one line."""
    for at, line in enumerate(lines):
        found = STATED.match(line)
        if found:
            more = at + 1
            while more < len(lines) and lines[more].startswith(" "):
                more += 1
            yield found[1], " ".join([found[2], *(part.strip() for part in lines[at + 1:more])])


def same(kind, own):
    """A type with its variables numbered in the order in which they are bound, and the words of its own file marked as such."""
    names = dict(own)
    for found in BOUND.finditer(kind):
        for name in (found[1] or found[2]).split():
            names.setdefault(name, f"#{len(names) - len(own)}")
    return re.sub(r"[^\s(){},.→]+", lambda found: names.get(found[0], found[0]), kind)


def own_words(place, lines):
    """The words that a file declares beside its lemmas, each with the file's name."""
    return {found[1]: f"{place}:{found[1]}" for found in map(OWN.match, lines) if found}


def is_claim(kind):
    """Whether a type says that something holds, and is not that of a function or of a word for a property."""
    last = re.split(r" → ", kind)[-1]
    return bool(re.search(r" [≡≤<⊎×↔] |⊥", last)) or (last[:1].isupper() and re.split(r"[ )]", last)[0] not in PLAIN)


def repeated_lemmas():
    places = collections.defaultdict(dict)
    for _, file, lines in texts("proofs"):
        place = file.relative_to(shape.ROOT / "crates")
        own = own_words(place, lines)
        for name, kind in statements(lines):
            if is_claim(kind):
                places[same(kind, own)].setdefault(place, name)
    return [f"{', '.join(f'{file}: {name}' for file, name in found.items())} : {kind}"
            for kind, found in sorted(places.items(), key=lambda row: (-len(row[1]), row[0])) if len(found) > 1]


def definitions():
    """Each definition of specs/: its crate, its place, its name, and whether a comment stands above it or its mutual block."""
    for crate, file, lines in texts("specs"):
        block, block_said = "", False
        for at, line in enumerate(lines):
            found = DEFINED.match(line)
            said = at > 0 and lines[at - 1].strip().startswith("--")
            if line.strip() == "abbrev mutual":
                block, block_said = line[:line.index("abbrev")] + "  ", said
            if found and not (found[1] and is_field(lines, at)):
                together = found[1] == block and line.lstrip().startswith("pub") and bool(block)
                place = f"{file.relative_to(shape.ROOT / 'crates')}:{at + 1}"
                yield crate, place, found[2], said or (together and block_said)


def is_field(lines, at):
    """Whether a line that is set in belongs to a record, and is not a definition of a module or of a mutual block."""
    depth = len(lines[at]) - len(lines[at].lstrip())
    for line in reversed(lines[:at]):
        if line.strip() and len(line) - len(line.lstrip()) < depth:
            return not re.match(r" *(module|abbrev mutual)", line)
    return False


def words_of_two_crates(found):
    crates = collections.defaultdict(dict)
    for crate, place, name, _ in found:
        crates[name].setdefault(crate, place)
    return [f"{name}: {', '.join(places.values())}" for name, places in sorted(crates.items()) if len(places) > 1]


def uses(file):
    """The words of specs/ that a file names: each with the crate and the module that its import gives."""
    text = file.read_text()
    for line in text.splitlines():
        found = USED.match(line)
        if not found:
            continue
        crate, module, names, alias = found.groups()
        passed_on = re.match(r"([a-z_0-9]+)_([A-Z]\w*)$", module)
        if passed_on and (shape.ROOT / "crates" / passed_on[1]).is_dir():
            crate, module = passed_on.groups()
        for name in names.split(",") if names else re.findall(rf"(?<![\w.]){alias}\.([\w'-]+)", text):
            word, _, own = name.strip().partition(" as ")
            yield own or word, crate, module


def words_that_meet(found):
    """The words of which a crate uses two, by its own names for them."""
    places = collections.defaultdict(lambda: collections.defaultdict(set))
    of_two = {row.partition(":")[0] for row in words_of_two_crates(found)}
    for crate, place, name, _ in found:
        places[name][crate].add((crate, place.partition("/specs/")[2].partition(".antt")[0].replace("/", ".")))
    for folder in sorted((shape.ROOT / "crates").iterdir()):
        for part in ("src", "specs", "proofs"):
            for file in folder.glob(f"{part}/**/*.*t*"):
                for name, crate, module in uses(file):
                    if name in of_two:
                        places[name][folder.name].add((crate, module))
    return [f"{name}: {folder} uses {', '.join(f'{crate}.{module}' for crate, module in sorted(at))}"
            for name in sorted(of_two) for folder, at in sorted(places[name].items()) if len({crate for crate, _ in at}) > 1]


def main():
    folders = sorted((shape.ROOT / "crates").iterdir())
    code, found = shape.measured(folders), list(definitions())
    counts = (
        ("lemma statements that stand in two or more files", repeated_lemmas()),
        ("words of specs/ defined in two or more crates", words_of_two_crates(found)),
        ("of these, words that meet in one crate", words_that_meet(found)),
        ("functions with more than six parameters", code.wide),
        ("clauses with a line of more than 100 columns", code.clauses),
        ("clauses of more than 300 characters", code.wordy),
        ("functions of more than 40 lines", code.long),
        ("definitions of specs/ without a comment above", [f"{place} {name}" for _, place, name, said in found if not said]),
    )
    for title, rows in counts:
        print(f"{title}: {len(rows)}", *(rows if sys.argv[1:] == ["--list"] else ()), sep="\n  ")


main()
