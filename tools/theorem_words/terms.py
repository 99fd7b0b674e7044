"""The names of which a definition is made: what stands in its terms for something else than a variable.

A term is read as a tree by its brackets: a text for a token, a pair of a bracket and a list for what stands in brackets. Variables hide
the words that share their names: those of patterns, of a λ, a let, of argument lists and of the cases of an `elim`.
"""
import re

from theorem_words.files import KEYWORDS, NAME

TOKEN = re.compile(rf'"(?:[^"\\]|\\.)*"|\d\w*|{NAME}(?:\.(?:{NAME}|\d+|«{NAME}»))*|[(){{}}\[\]]|\S')
CLAUSE = re.compile(r"\b(?:ghost|requires|ensures)\b[^{;]*?\{")


def nested(tokens):
    """The tokens as a tree."""
    out = []
    for token in tokens:
        if token in (")", "}", "]"):
            break
        out.append((token, nested(tokens)) if token in ("(", "{", "[") else token)
    return out


def term(text):
    return nested(found[0] for found in TOKEN.finditer(text))


def is_word(token):
    return isinstance(token, str) and re.match(NAME, token) is not None and token not in KEYWORDS


def binder(token):
    """The variables of `(x y : T)` or `{x : T}`; none where it is no such thing."""
    if isinstance(token, str) or token[0] == "[" or ":" not in token[1]:
        return []
    names = token[1][:token[1].index(":")]
    return names if all(is_word(name) and "." not in name for name in names) else []


class Names:
    """The names in terms of a file. `is_maker` tells of a name in a pattern whether it is a constructor."""

    def __init__(self, is_maker):
        self.is_maker = is_maker

    def variables(self, pattern):
        """The variables of a pattern."""
        for token in pattern:
            if isinstance(token, tuple):
                yield from self.variables(token[1])
            elif is_word(token) and "." not in token and not self.is_maker(token):
                yield token

    def of(self, tokens, bound=frozenset()):
        """The names in tokens among which these variables are bound."""
        bound, number = set(bound), 0
        while number < len(tokens):
            token, before = tokens[number], tokens[number - 1] if number else ""
            number += 1
            if isinstance(token, tuple):
                yield from self.in_brackets(token, bound)
                bound |= set(binder(token))
            elif token == "λ":
                end = tokens.index(".", number)
                yield from self.of_arguments(tokens[number:end], bound)
                number = end + 1
            elif token == "let":
                end = tokens.index("in", number) if "in" in tokens[number:] else len(tokens)
                yield from self.of(tokens[number + 1:end], bound)
                bound |= set(self.variables([tokens[number]]))
                number = end + 1
            elif token == "." and isinstance(before, tuple):
                number += 1
            elif is_word(token) and token.split(".")[0] not in bound:
                yield token

    def of_arguments(self, tokens, bound):
        """The names in the types of arguments. Adds the variables to those that are bound."""
        for token in tokens:
            names = binder(token)
            if names:
                yield from self.of(token[1][len(names):], bound)
            bound |= set(names or self.variables([token]))

    def in_brackets(self, token, bound):
        """The names in what stands in brackets: an argument with its type, the cases of an `elim`, fields, or a term."""
        bracket, inner = token
        if binder(token):
            yield from self.of(inner[len(binder(token)):], bound)
        elif bracket == "[" and "↦" in inner:
            for pattern, body in cases(inner):
                own = bound | set(self.variables(pattern))
                yield from self.of(pattern, own)
                yield from self.of(body, own)
        elif bracket == "{":
            for field in parted(inner, ";"):
                is_named = len(field) > 2 and is_word(field[0]) and field[1] == "=" != field[2]
                yield from self.of(field[2:] if is_named else field, bound)
        else:
            yield from self.of(inner, bound)

    def of_definition(self, definition):
        """The names that a definition of specs/ is made of."""
        bound = set(locals_of(definition))
        for params in definition.params:
            for token in term(params):
                if binder(token):
                    yield from self.of_arguments([token], bound)
        first, *rest = statements(definition)
        head = first[first.index(definition.name) + 1:]
        if definition.kind == "word":
            yield from self.of(head, bound)
            yield from self.of_equations(definition, rest, bound)
        else:
            yield from self.of_head(head, bound)
            yield from self.of_members(definition, rest, bound)

    def of_head(self, head, bound):
        """The names in the header of a record or a data type, whose arguments stay bound."""
        for token in head:
            if binder(token):
                yield from self.of_arguments([token], bound)
            else:
                yield from self.of([token], bound)

    def of_equations(self, definition, parts, bound):
        """The names in the equations of a word. Those of its own words, behind one of them, see that one's variables."""
        outer = set()
        for part in parts:
            pattern = set(self.variables(part[1:part.index("=")])) if "=" in part else set()
            outer = pattern if part[0] == definition.name else outer
            yield from self.of(part if ":" in part and "=" not in part else part[1:], bound | outer | pattern)

    def of_members(self, definition, parts, bound):
        """The names in the fields of a record, each of which is bound behind it, or in constructors."""
        for part in parts:
            end = part.index(":") if ":" in part else 0
            yield from self.of(part[end:], bound)
            if definition.kind == "record":
                bound |= {name for name in part[:end] if is_word(name)}


def parted(tokens, sign):
    """The tokens between signs."""
    parts = [[]]
    for token in tokens:
        if token == sign:
            parts.append([])
        else:
            parts[-1].append(token)
    return [part for part in parts if part]


def cases(tokens):
    """The patterns and bodies of an `elim`."""
    for case in parted(tokens, "|"):
        if "↦" in case:
            yield case[:case.index("↦")], case[case.index("↦") + 1:]


def depth_of(line):
    return len(line) - len(line.lstrip())


def locals_of(definition):
    """The names that a word defines for itself, below its equations."""
    if definition.kind == "word":
        for line in definition.lines[1:]:
            found = re.match(rf"\s+({NAME}) *:", line)
            if found and depth_of(line) > depth_of(definition.lines[0]):
                yield found[1]


def statements(definition):
    """The parts of a definition as terms: its header, and each equation, also of a word of its own, field or constructor."""
    lines, own = definition.lines, set(locals_of(definition))
    inner = depth_of(lines[0]) if definition.kind == "word" else min(map(depth_of, lines[1:]), default=0)
    parts = [lines[0]]
    for line in lines[1:]:
        if (depth_of(line) <= inner or line.split()[0] in own) and not is_open(parts[-1]):
            parts.append(line)
        else:
            parts[-1] += " " + line.strip()
    return [term(part) for part in parts]


def is_open(text):
    """Whether a bracket of the text is not closed in it."""
    tokens = [found[0] for found in TOKEN.finditer(text)]
    return sum(token in ("(", "{", "[") for token in tokens) > sum(token in (")", "}", "]") for token in tokens)


def ghosts(lines):
    """The terms of ghost members and clauses in lines of code, and the code without them."""
    text = "\n".join(line.split("//")[0] for line in lines if not line.strip().startswith("ghost use"))
    terms, code, at = [], "", 0
    for found in CLAUSE.finditer(text):
        if found.start() >= at:
            depth, end = 1, found.end()
            while depth and end < len(text):
                depth += (text[end] == "{") - (text[end] == "}")
                end += 1
            terms.append(text[found.start():found.end()].split("{")[0].split() + [text[found.end():end - 1]])
            code, at = code + text[at:found.start()], end
    return [(words[:-1], words[-1]) for words in terms], code + text[at:]
