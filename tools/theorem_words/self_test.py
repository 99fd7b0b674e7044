"""Small cases for the reader of files and the follower of names, and a count of the tree's definitions by another way."""
import re

from theorem_words.files import Module, SpecReader, header, item_end, read_source, without_comment
from theorem_words.terms import Names, ghosts

FILE = """-- Of numbers. Own.
use Rattle.std.specs.Prelude.{List, []}
use Rattle.low.specs.Lists as lists

-- a pair
pub record Pair (T : Type 0) : Type 0 where
  pub left : T    -- its first
  pub right : Kept left

-- one or two
pub data Some : Type 0 where
  one : Item → Some
  two : Pair Item → Some

-- how many
abbrev pub count : Some → Amount
count (one item) = first
count (two p) = helper p.left 1_000_000
  where
    helper : Item → Amount → Amount
    helper x n = weight x p

-- both
abbrev mutual
  pub even : Amount → Truth
  even zero = yes
  even (next n) = odd n

  odd : Amount → Truth
  odd zero = no
  odd (next n) = even n

module _ (order : Order) where
  -- in order
  pub record IsSorted (xs : List Item) : Type 0 where
    pub all : Held order xs

pub hidden : Amount → Amount
hidden weight = (λ first. first + second) weight

pub let_in : Amount → Amount
let_in n = let first = second in third first

pub by_case : Some → Amount
by_case s = elim s
  [ one weight ↦ scale weight
  | two _ ↦ made { first = zero; second = n }
  ]
"""
NAMED = {"Pair": {"Type", "Kept"}, "Some": {"Some", "Type", "Item", "Pair"}, "count": {"Some", "Amount", "one", "two", "first", "Item", "weight"},
         "even": {"Amount", "Truth", "zero", "yes", "next", "odd"}, "odd": {"Amount", "Truth", "zero", "no", "next", "even"},
         "IsSorted": {"Order", "List", "Item", "Type", "Held"}, "hidden": {"Amount", "second"},
         "let_in": {"Amount", "second", "third"}, "by_case": {"Some", "Amount", "one", "two", "scale", "made", "zero", "n"}}
SAID = {"Pair": "a pair", "count": "how many", "even": "both", "odd": "both", "IsSorted": "in order", "hidden": ""}
CODE = """use low::{Item};
ghost use Rattle.low.specs.Lists.{long};

/// What is kept. In a list.
#[derive(Drop)]
pub struct Kept<'a> {
    items: &'a [Item],
    ghost count = { long 0 },
}

impl<'a> Model for Kept<'a> {
    ghost Value = {
        List Item
    };
    ghost view = { λ k. k.items };
}

/// A brace.
pub const OPEN: u8 = b'{';
pub enum Kind { Small, Large }
"""
DEFINED = re.compile(r"^ *(?:abbrev +|unfoldable +|mutual +)*pub +(?!use\b|mod\b|module\b)(?:(?:record|data|class) +)?[^\W\d][\w'\-]*", re.M)


def constructors(names):
    return Names(lambda name: name in names)


def spec_cases():
    """Each case that fails of a file of specs/."""
    module = SpecReader(Module("case", "specs/Case.antt")).read(FILE)
    names = constructors({"one", "two", "zero", "next"})
    for name, expected in NAMED.items():
        found = set(names.of_definition(module.names[name])) if name in module.names else None
        found = found and {it.split(".")[0] for it in found}
        if found != expected:
            yield f"{name}: names {found}, not {expected}"
    for name, expected in SAID.items():
        if module.names[name].said != expected:
            yield f"{name}: its comment is {module.names[name].said!r}"
    if module.said != "Of numbers. Own." or set(module.makers) != {"one", "two"} or module.uses["List"] != ("std.specs.Prelude", "List"):
        yield f"the file: {module.said!r}, {set(module.makers)}, {module.uses}"
    if module.others != {"lists": "low.specs.Lists"} or set(module.names) != set(NAMED):
        yield f"the file: {module.others}, {set(module.names)}"


def source_cases():
    """Each case that fails of a file of src/."""
    module = read_source(Module("case", "src/case.rt"), CODE)
    kinds = {it.name: it.kind for it in module.names.values()}
    if kinds != {"Kept": "struct", "OPEN": "constant", "Kind": "enum"} or module.names["Kept"].said != "What is kept.":
        yield f"the items: {kinds}, {module.names['Kept'].said!r}"
    terms, code = ghosts(module.names["Kept"].lines)
    if [(words, text.strip()) for words, text in terms] != [(["ghost", "count", "="], "long 0")] or "long" in code or "Item" not in code:
        yield f"the ghost members: {terms}, {code}"
    seen = [(words[1], text.split()) for words, text in ghosts(module.models["Kept"])[0]]
    if seen != [("Value", ["List", "Item"]), ("view", ["λ", "k.", "k.items"])]:
        yield f"the model: {seen}"


def line_cases():
    """Each case that fails of single lines."""
    for line, expected in (('a = "--" -- b', 'a = "--"'), ("a--b", "a--b"), ("-- a", ""), ("a -- b -- c", "a")):
        if without_comment(line) != expected:
            yield f"{line!r} without its comment is {without_comment(line)!r}"
    for line, expected in (("f x = y", None), ("let x : T", None), ("pub f : T", "f"), ("abbrev f' (x : T) : U", "f'"), ("f : T", "f")):
        found = header(line)
        if (found and found[3]) != expected:
            yield f"{line!r} begins {found and found[3]}"
    if item_end(["const A: [u8; 2] = [", "    b'{', b'[',", "];", "x"], 0) != 3:
        yield "an item with brackets in quotes does not end where it does"


def count_cases(tree):
    """Each file of specs/ in which the lines that define something public, by their beginnings, are not as many as were read."""
    for module in tree.modules.values():
        if module.is_source:
            continue
        text = (tree.root / "crates" / module.crate / module.path).read_text()
        read = sum(line.count("pub ") > 0 for it in module.names.values() for line in it.lines[:1])
        members = sum(bool(DEFINED.match(line)) for it in module.names.values() if it.kind != "word" for line in it.lines[1:])
        if len(DEFINED.findall(text)) != read + members:
            yield f"{module.crate}/{module.path}: {len(DEFINED.findall(text))} public lines, of which {read + members} were read"


def failures(tree):
    """What each case that fails says."""
    return [*spec_cases(), *source_cases(), *line_cases(), *count_cases(tree)]
