"""What every name means, and all that is reached from the contracts of the top calls."""
import pathlib
import re

from theorem_words.files import Module, SpecReader, read_source
from theorem_words.terms import Names, ghosts, term

BUILT_IN = {"Type", "Unit", "Prim"}
STD_TYPES = {"Self", "Vec", "String", "Option", "Result", "Some", "None", "Ok", "Err", "Box", "Global", "Model", "Drop", "Copy", "Clone"}
CALL = r"^(?:[ \t]*///.*\n)*([ \t]*)pub fn {}\b(?s:.*?)(?=\n\1?\{{)"


class Tree:
    """All files of the crates. `lost` has what could not be followed, `kit` the names that the kit defines, by module."""

    def __init__(self, root):
        self.root, self.lost, self.kit, self.aliases, self.modules = root, set(), {}, {}, {}
        self.crates = [line.partition(":")[0].strip() for line in (root / "crates.txt").read_text().splitlines()
                       if line.strip() and not line.startswith("#")]
        for crate in self.crates:
            folder = root / "crates" / crate
            for file in sorted([*folder.glob("specs/**/*.antt"), *folder.glob("src/**/*.rt")]):
                self.add(Module(crate, str(file.relative_to(folder))), file.read_text())

    def add(self, module, text):
        """Takes a file. What a Lib.antt hands on of other crates are aliases."""
        if pathlib.PurePath(module.path).name == "Lib.antt":
            for line in text.splitlines():
                module.add_use(line)
            self.aliases.update({(module.crate, name): at for name, at in module.others.items()})
            return
        self.modules[f"{module.crate}.{module.place}"] = read_source(module, text) if module.is_source else SpecReader(module).read(text)

    def specs(self):
        """Every definition of specs/."""
        return [it for module in self.modules.values() if not module.is_source for it in module.names.values()]

    def find(self, at, name):
        """The definition of this name in a module; none where the kit has it or it cannot be followed."""
        parts = at.split(".")
        while parts[1:2] == ["specs"] and (parts[0], "".join(parts[2:3])) in self.aliases:
            parts = self.aliases[parts[0], parts[2]].split(".") + parts[3:]
        if parts[0] not in self.crates:
            self.kit.setdefault(".".join(parts), set()).add(name)
            return None
        if parts[1:3] == ["specs", "declared"]:
            return self.find_item(parts[0], parts[3:], name)
        module = self.modules.get(".".join(parts))
        found = module and (module.names.get(name) or module.makers.get(name))
        if module and not found and name in module.uses:
            return self.find(*module.uses[name])
        return found or self.lose(f"{at}.{name}")

    def find_item(self, crate, parts, name):
        """The item of src/ that a name of `declared` is or belongs to: a constant of a module, or a type with its variants."""
        if parts[-1] == "TheConstants":
            folders, wanted = parts[:-1], name
        else:
            own = [number for number, part in enumerate(parts) if part[0].isupper()]
            folders, wanted = parts[:own[0]], parts[own[0]]
        for place in (folders, folders + ["mod"]) if folders else (["lib"], ["main"]):
            module = self.modules.get(".".join([crate, "src", *place]))
            if module and wanted in module.names:
                return module.names[wanted]
        return self.lose(".".join([crate, "specs.declared", *parts, name]))

    def lose(self, name):
        self.lost.add(name)

    def meaning(self, module, name):
        """The definition that a name means in a file; none where it is the kit's."""
        first, _, rest = name.partition(".")
        if first in module.names or first in module.makers:
            return module.names.get(first) or module.makers[first]
        if first in module.uses:
            return self.find(*module.uses[first])
        if first in module.others:
            return self.find(module.others[first], rest.split(".")[0]) if rest else None
        return None if first in BUILT_IN else self.lose(f"{name} in {module.crate}/{module.path}")

    def is_maker(self, module, name):
        """Whether a name in a pattern is a constructor: one of its file, of an import, or of the kit."""
        if name not in module.uses:
            return name in module.makers
        at, own = module.uses[name]
        found = self.find(at, own)
        return found is None or own in found.module.makers or found.is_source

    def names_in(self, module):
        return Names(lambda name: self.is_maker(module, name))

    def rests(self, definition):
        """The definitions that one names."""
        if definition.is_source:
            found = self.rests_of_item(definition)
        else:
            module = definition.module
            found = {self.meaning(module, name) for name in self.names_in(module).of_definition(definition)}
        return found - {None, definition}

    def rests_of_item(self, definition):
        """What an item of src/ rests on: its ghost members and the types of its fields; of one with a model, the model's `Value`."""
        module = definition.module
        model = module.models.get(definition.name)
        seen = module.with_uses(model or definition.lines)
        terms, code = ghosts(model or definition.lines)
        if model:
            terms = [(words, text) for words, text in terms if words[:2] == ["ghost", "Value"]]
        found = self.rests_of_terms(seen, terms, set())
        return found if model else found | self.types_in(module, re.sub(r"#\[.*?\]", "", code))

    def rests_of_terms(self, module, terms, bound):
        names = self.names_in(module)
        return {self.meaning(module, name) for _, text in terms for name in names.of(term(text), bound) if module.knows(name)}

    def types_in(self, module, code):
        """The items of src/ that code names."""
        own = set(re.findall(r"\b[A-Z]\w*(?= *:(?!:))", code))
        return {self.type_meant(module, name) for name in set(re.findall(r"(?<!')\b[A-Z]\w*", code)) - own - STD_TYPES}

    def type_meant(self, module, name):
        """The item that code of a file means by a capital name: its own, or one that it imports; none of a variant or of std."""
        if name in module.names:
            return module.names[name]
        found = re.search(rf"^(?:pub(?:\(\w+\))? )?use ([\w:]+?)::(?:\{{[^}}]*\b{name}\b[^}}]*\}}|{name});", module.text, re.M)
        if not found:
            return None
        first, *path = found[1].split("::")
        if first in self.crates:
            return self.item_of(first, path, name)
        above = {"crate": [], "self": module.place.split(".")[1:], "super": module.place.split(".")[1:-1]}
        return None if first == "std" else self.item_of(module.crate, above.get(first, [first]) + path, name)

    def item_of(self, crate, path, name):
        """The item of a crate that a path of code names; in a crate's root what its `pub use` hands on."""
        place = ".".join([crate, "src", *(path or ["lib"])])
        if place in self.modules:
            return self.type_meant(self.modules[place], name)
        return self.lose(f"{crate}::{'::'.join([*path, name])}")

    def contract(self, crate, path, call):
        """The text of a public call from its comment to its body."""
        text = self.modules[f"{crate}.{path[:-3].replace('/', '.')}"].text
        return re.search(CALL.format(call), text, re.M)[0]

    def rests_of_call(self, crate, path, call):
        """What a contract names, with the types and bounds of the call and the type whose method it is."""
        module = self.modules[f"{crate}.{path[:-3].replace('/', '.')}"]
        contract = self.contract(crate, path, call)
        terms, code = ghosts(contract.splitlines())
        bound = set(re.findall(r"\b(\w+) *:", code)) | {"self", "result"}
        found = self.rests_of_terms(module, terms, bound) | self.types_in(module, code)
        if "self" in re.findall(r"\w+", code):
            before = module.text[:module.text.index(contract)]
            found |= self.types_in(module, re.findall(r"^impl(?:<.*?>)? *(\w+)", before, re.M)[-1])
        return found - {None}


def closure(tree, top):
    """All that the top contracts rest on, each with the definition by which it was reached first; and what each call names itself."""
    reached, waiting, named = {}, [], {}
    for call in top:
        named[call] = sorted(tree.rests_of_call(*call), key=lambda it: it.key)
        waiting += [(it, None) for it in named[call]]
    for definition, by in waiting:
        if definition not in reached:
            reached[definition] = by
            waiting += [(it, definition) for it in sorted(tree.rests(definition), key=lambda it: it.key)]
    return reached, named


def layers(tree):
    """The crates by layer, as docs/ARCHITECTURE.md has them."""
    text = (tree.root / "docs" / "ARCHITECTURE.md").read_text()
    rows = [line.split("|")[1:3] for line in text[text.index("## The layers"):text.index("## Tools")].splitlines() if line.startswith("| ")]
    told = [(title.strip(), [crate for crate in tree.crates if f"`{crate}`" in crates]) for title, crates in rows[1:]]
    placed = {crate for _, crates in told for crate in crates}
    return told + [("others", [crate for crate in tree.crates if crate not in placed])]


def in_order(modules):
    """The files of a crate, each behind those that it imports; of those that import one another the first by name."""
    out, left = [], sorted(modules, key=lambda it: (not it.is_source, it.path))
    while left:
        places = {f"{it.crate}.{it.place}" for it in left}
        free = [it for it in left if not ({at for at, _ in it.uses.values()} | set(it.others.values())) & places - {f"{it.crate}.{it.place}"}]
        out += free or left[:1]
        left = [it for it in left if it not in out]
    return out


def in_layers(tree, reached):
    """The layers in reading order: each with its crates, each of these with its files, each of these with what is reached of it."""
    files = {}
    for definition in reached:
        files.setdefault(definition.module.crate, set()).add(definition.module)
    for title, crates in layers(tree):
        shown = [(crate, [(module, [it for it in module.names.values() if it in reached]) for module in in_order(files[crate])])
                 for crate in crates if crate in files]
        if shown:
            yield title, shown
