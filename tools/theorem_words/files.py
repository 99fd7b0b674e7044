"""Files of specs/ and src/ taken to pieces: their definitions with their comments, and their imports."""
import re

NAME = r"[^\W\d][\w'\-]*"
KEYWORDS = {"abbrev", "pub", "record", "data", "where", "let", "in", "elim", "as", "mutual", "module", "unfoldable", "unfolding", "ghost",
            "if", "then", "else"}
HEADER = re.compile(rf"(?:(?:abbrev|unfoldable|mutual) +)*(pub +)?(?:(record|data|class) +)?({NAME})(?= *[:({{])")
PLAIN_HEADER = re.compile(rf"(abbrev|pub|unfoldable|mutual)\b|{NAME} *:")
OPENER = re.compile(r"(?:abbrev +)?mutual$|module\b.*\bwhere$")
USE = re.compile(rf"(?:pub +|ghost +)*use +Rattle\.([\w.]+?)(?:\.\{{(.*)\}}|(?: +as +({NAME}))?);?$")
ITEM = re.compile(r"(?:pub(?:\(\w+\))? +)?(struct|enum|trait|const|type|static) +([A-Za-z_]\w*)")
MODEL = re.compile(r"impl(?:<.*?>)? +Model +for +(\w+)")
QUOTED = re.compile(r"""b?"(?:[^"\\]|\\.)*"|b?'(?:[^'\\]|\\.)'""")


class Definition:
    """A definition of specs/, of the kind `word`, `record`, `data` or `class`, or an item of src/."""

    def __init__(self, module, name, kind, said):
        self.module, self.name, self.kind, self.said = module, name, kind, said
        self.params, self.lines = [], []

    @property
    def is_source(self):
        return self.module.is_source

    @property
    def key(self):
        """What definitions are sorted by."""
        return self.module.crate, self.module.path, self.name


class Module:
    """A file: what it defines (`names`), its constructors (`makers`), the names that it imports (`uses`) and the modules (`others`)."""

    def __init__(self, crate, path):
        self.crate, self.path = crate, path
        self.is_source = path.endswith(".rt")
        self.place = path.rpartition(".")[0].replace("/", ".")
        self.said, self.text = "", ""
        self.names, self.makers, self.uses, self.others, self.models = {}, {}, {}, {}, {}

    def add_use(self, line):
        """Takes an import, if the line is one."""
        found = USE.match(line)
        if not found:
            return False
        at, names, alias = found.groups()
        for name in (names or "").split(","):
            words = name.split(" as ")
            if name.strip():
                self.uses[words[-1].strip()] = (at, words[0].strip())
        if names is None:
            self.others[alias or at.split(".")[-1]] = at
        return True

    def with_uses(self, lines):
        """The same file as these lines see it, which may have imports of their own."""
        seen = Module(self.crate, self.path)
        seen.names, seen.makers, seen.uses, seen.others = self.names, self.makers, dict(self.uses), dict(self.others)
        for line in lines:
            seen.add_use(line.strip())
        return seen

    def knows(self, name):
        """Whether the first part of a name means something in this file."""
        first = name.partition(".")[0]
        return any(first in known for known in (self.names, self.makers, self.uses, self.others))


class Block:
    """What lines stand in at a depth: a record or a data type, or a block with parameters or of mutual definitions."""

    def __init__(self, depth, definition, params, said):
        self.depth, self.definition, self.params, self.said = depth, definition, params, said


def without_comment(line):
    """The line up to its comment, which begins at a `--` behind white space and outside quotes."""
    at = line.find("--")
    while at > 0 and (line[at - 1] != " " or line[:at].count('"') % 2):
        at = line.find("--", at + 1)
    return (line[:at] if at >= 0 else line).rstrip()


def header(word):
    """The header of a definition, where the text begins one: a kind or a visibility before its name, or a name with its type."""
    found = HEADER.match(word)
    if not found or found[3] in KEYWORDS:
        return None
    return found if found[2] or PLAIN_HEADER.match(word) else None


class SpecReader:
    """Takes a file of specs/ to pieces. What stands at a depth belongs to the last thing above that stands at a lower one."""

    def __init__(self, module):
        self.module, self.blocks, self.said, self.last = module, [], [], None

    def read(self, text):
        """Takes the text of the file; the comment at its head is what the file says of itself. Returns the module."""
        in_head = True
        for line in text.splitlines():
            if line.lstrip().startswith("--"):
                self.said.append(line.strip()[2:].strip())
                continue
            if in_head and self.said:
                self.module.said, self.said = " ".join(self.said), []
            in_head = False
            code = without_comment(line)
            if code.strip() and not self.module.add_use(code.strip()) and not re.match(r"(pub +)?mod\b", code):
                self.take(code)
        return self.module

    def take(self, code):
        """Takes a line of a definition, or one that opens a block."""
        word, depth = code.strip(), len(code) - len(code.lstrip())
        while self.blocks and depth <= self.blocks[-1].depth:
            self.blocks.pop()
        inside = self.blocks[-1] if self.blocks else None
        found = header(word)
        if inside and inside.definition:
            self.add_member(inside.definition, code)
        elif OPENER.match(word):
            self.blocks.append(Block(depth, None, word[len("module "):] if word.startswith("module") else "", self.said))
        elif found and (self.last is None or depth <= self.last.depth or (inside and inside.depth >= self.last.depth)):
            self.define(code, depth, found, inside)
        else:
            self.owner(word, depth).lines.append(code)
        self.said = []

    def add_member(self, definition, code):
        """Takes a line of a record or a data type."""
        maker = re.match(rf"(?:pub +)?({NAME})(?= *:)", code.strip())
        if maker and definition.kind == "data":
            self.module.makers[maker[1]] = definition
        definition.lines.append(code)

    def owner(self, word, depth):
        """Whose line it is: in a mutual block equations may stand behind the types of all."""
        found = re.match(NAME, word)
        own = self.module.names.get(found[0]) if found else None
        return own if own and own.kind == "word" and depth == self.last.depth else self.last.definition

    def define(self, code, depth, found, inside):
        """Begins a definition. One without a comment in a mutual block has the block's."""
        said = self.said or (inside.said if inside and not inside.params else [])
        made = Definition(self.module, found[3], found[2] or "word", " ".join(said))
        made.params = [block.params for block in self.blocks if block.params]
        made.lines.append(code)
        self.module.names[made.name] = made
        self.last = Block(depth, made, "", [])
        if made.kind != "word":
            self.blocks.append(self.last)


def item_end(lines, begin):
    """The number of the line behind an item: its brackets are closed, and it ends with a brace or a semicolon."""
    depth = 0
    for number in range(begin, len(lines)):
        code = QUOTED.sub("", lines[number]).split("//")[0].rstrip()
        depth += sum(code.count(sign) for sign in "([{") - sum(code.count(sign) for sign in ")]}")
        if depth == 0 and code.endswith((";", "}")):
            return number + 1
    return len(lines)


def read_source(module, text):
    """Takes a file of src/ to pieces: its imports, its structs, enums, traits and constants, and what contracts see of its models."""
    module.text = text
    lines, said, number = text.splitlines(), [], 0
    while number < len(lines):
        line = lines[number]
        item, model = ITEM.match(line), MODEL.match(line)
        end = item_end(lines, number) if item or model else number + 1
        if item:
            kind = "constant" if item[1] in ("const", "static") else item[1]
            made = Definition(module, item[2], kind, re.split(r"(?<=\.) ", " ".join(said))[0])
            made.lines = lines[number:end]
            module.names[made.name] = made
        elif model:
            module.models[model[1]] = lines[number:end]
        elif line.startswith("ghost use"):
            module.add_use(line)
        if line.startswith("///"):
            said.append(line[3:].strip())
        elif not line.startswith("#"):
            said = []
        number = end
    return module
