#!/usr/bin/env python3
"""Writes docs/THEOREM.md: every definition on which the contracts of the top calls rest, in reading order.

usage: tools/theorem.py [--check | --whole | --why NAME .. | --self-test]

From the clauses of each call in TOP, and of each law in LAWS, every name is followed through the imports of specs/ and src/ (aliases, what
a Lib.antt hands on, `pub use`, constants, structs and enums with their ghost members) to all that it is made of. What is reached so is a
word of the theorem and stands in specs/; every other definition is a working word, of the contracts of inner calls or of proofs, and
stands in specs/work.

--check      writes nothing; the status is 1 where the page is not what would be written, where a name cannot be followed, or where a
             definition stands on the wrong side of specs/work
--whole      prints the text of every definition of the page, in its order
--why        prints by which definitions a name is reached from the top
--self-test  follows names through small files of its own, and counts the tree's definitions by another way

Of a struct of src/ the fields are followed where clauses see them, of one with an `impl Model` its `Value` alone, since that is what
clauses see. Definitions of the kit's libraries are listed by name and not followed.
"""
import pathlib
import sys

sys.dont_write_bytecode = True
from theorem_words.self_test import failures
from theorem_words.tree import Tree, closure, in_layers

ROOT = pathlib.Path(__file__).resolve().parent.parent
PAGE = ROOT / "docs" / "THEOREM.md"
TOP = [("pgplan", "src/top.rt", "pgplan"), ("pgplan", "src/machine.rt", "step")]
LAWS = [("script_laws", f"src/{file}.rt", law) for file, laws in (
    ("right", ("a_printed_plan_is_the_least", "a_valid_certificate_is_right", "a_printed_table_is_right", "a_used_plan_is_no_cheaper",
               "a_printed_advice_is_the_least")),
    ("reached", ("reached_worlds_are_lawful", "asked_queries_are_well_bound", "asked_groups_are_well_grouped")),
    ("one", ("a_statement_has_one_reply",)),
    ("texts", ("different_certificates_have_different_texts", "different_tables_have_different_texts"))) for law in laws]
HEAD = """# The theorem

What has to be read to know what is proved of the program: the contracts of the two top calls, the laws of what scripts reach and print, and every definition on which they rest. `tools/theorem.py` writes this page from `specs/` and `src/`, following each name through the imports, and the gate fails where the page is stale or a name cannot be followed. [What is proved](PROVED.md) says the same in prose, and [a page of its own](TRUST.md) what is tested and trusted.

**How to read it.** First the clauses, then the definitions, either from the top (look up what a clause names, then what that names) or layer by layer as they stand here, where each stands behind those that it is made of. A definition has the comment that stands above it, its file a link to the text and, in its first line, where its subject is described in public ("Own" is this project's own). `tools/theorem.py --whole` prints the texts of all definitions in this order, and `--why NAME` how one is reached.

**What is left out.** {working:,} more definitions are working words, in which the contracts of inner calls and the proofs speak: changing one of them changes no claim about the program. They stand in `specs/work/` of each crate, and the gate fails where a word stands on the wrong side. Also left out are how the structs of `src/` keep what contracts see of them, and the kit's own definitions, which the end of the page lists by name.

**How much it is.** {words:,} definitions with {lines:,} lines without comments, in {files:,} files of {crates:,} crates, and {items:,} items of `src/`: structs, enums and traits as clauses see them, and constants.
"""


def head(tree, reached):
    words = [it for it in reached if not it.is_source]
    return HEAD.format(words=len(words), lines=sum(len(it.lines) for it in words), files=len({it.module for it in words}),
                       crates=len({it.module.crate for it in words}), items=len(reached) - len(words),
                       working=len(tree.specs()) - len(words))


def calls(tree, which, named):
    """The clauses of these calls as they stand in the code, and what each names."""
    for crate, path, call in which:
        told = ", ".join(f"`{name}`" for name in sorted({it.name for it in named[crate, path, call]}))
        yield f"\n### `{call}`\n\n[crates/{crate}/{path}](../crates/{crate}/{path}) names {told}.\n"
        yield f"\n```\n{tree.contract(crate, path, call)}\n```\n"


def counts(order):
    """A table of the layers."""
    yield "\n## The layers\n\n| layer | definitions | items of `src/` |\n|---|---|---|\n"
    for title, crates in order:
        own = [it for _, modules in crates for _, names in modules for it in names]
        items = sum(it.is_source for it in own)
        yield f"| {title} | {len(own) - items} | {items} |\n"


def layer(title, crates):
    """A layer's crates with their files and definitions."""
    yield f"\n## {title[0].upper()}{title[1:]}\n"
    for crate, modules in crates:
        yield f"\n### {crate}\n"
        for module, names in modules:
            yield f"\n[{module.path}](../crates/{crate}/{module.path}){': ' + module.said if module.said else ''}\n\n"
            for it in names:
                yield f"- `{it.name}`{'' if it.kind == 'word' else f' ({it.kind})'}{': ' + it.said if it.said else ''}\n"


def page(tree, reached, named):
    """The text of the page."""
    order = list(in_layers(tree, reached))
    parts = [head(tree, reached), "\n## The contracts\n", *calls(tree, TOP, named), "\n## The laws\n", *calls(tree, LAWS, named), *counts(order)]
    for title, crates in order:
        parts += layer(title, crates)
    parts.append("\n## Words of the kit\n\nBy module, not followed.\n\n")
    parts += [f"- `{at}`: {', '.join(f'`{name}`' for name in sorted(tree.kit[at]))}\n" for at in sorted(tree.kit)]
    return "".join(parts)


def why(reached, names):
    """Prints the way from each definition of these names up to a clause."""
    for name in names:
        found = [it for it in reached if it.name == name]
        print(f"{name}: {'reached' if found else 'not reached'}")
        for it in found:
            while it is not None:
                print(f"  {it.name} ({it.module.crate}/{it.module.path})")
                it = reached[it]
            print()


def whole(tree, reached):
    """Prints the definitions in reading order."""
    for title, crates in in_layers(tree, reached):
        for crate, modules in crates:
            for module, names in modules:
                print(f"\n-- {title}: crates/{crate}/{module.path}. {module.said}")
                for it in names:
                    print("\n" + (f"-- {it.said}\n" if it.said else "") + "\n".join(it.lines))


def misplaced(tree, reached):
    """A line for each definition on the wrong side of specs/work."""
    for it in tree.specs():
        is_working = it.module.path.startswith("specs/work/")
        if is_working == (it in reached):
            told = ("a word of the theorem (--why tells how it is reached)", "specs/") if is_working else ("a working word", "specs/work/")
            yield f"{it.module.crate}/{it.module.path}: {it.name} is {told[0]} and belongs into {told[1]}"


def check(text, wrong):
    """Whether the page is stale or a definition misplaced; says what mends it."""
    stale = not PAGE.exists() or PAGE.read_text() != text
    if stale:
        print("docs/THEOREM.md is not what the sources say: run tools/theorem.py, and read what has changed of the claim")
    print(*wrong, sep="\n", end="\n" if wrong else "")
    return stale or bool(wrong)


def main():
    option, *names = sys.argv[1:] or [""]
    if option not in ("", "--check", "--whole", "--why", "--self-test") or bool(names) != (option == "--why"):
        print(__doc__, end="", file=sys.stderr)
        return 2
    tree = Tree(ROOT)
    reached, named = closure(tree, TOP + LAWS)
    for name in sorted(tree.lost):
        print(f"{name}: cannot be followed")
    if option == "--why":
        why(reached, names)
    elif option == "--whole":
        whole(tree, reached)
    elif option == "--self-test":
        failed = failures(tree)
        print(*failed, f"self-test: {len(failed)} failed", sep="\n")
        return bool(failed)
    elif option == "--check":
        return check(page(tree, reached, named), list(misplaced(tree, reached))) or bool(tree.lost)
    else:
        PAGE.write_text(page(tree, reached, named))
    return bool(tree.lost)


if __name__ == "__main__":
    sys.exit(main())
