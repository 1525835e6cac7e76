"""What a name means in the crates of the repository. What is named is an item: ("spec", file, name) a definition of specs/, ("type", file,
name) a type or constant of src/, ("member", file, number, name) a member of a block there, or ("kit", crate, name)."""

from lib.contracts import SourceFile
from lib.definitions import SMALL_CONSTRUCTORS, SpecFile

VARIANTS = ("TheVariants", "TheOpen")
STD = ("std", "core")


def crate_of(file):
    return file.split("/")[1]


class Repository:
    """The files of all crates, each read when it is asked for."""

    def __init__(self, root):
        self.root = root
        self.crates = {it.name for it in (root / "crates").iterdir()}
        self.specs, self.sources = {}, {}

    def spec(self, file):
        if file not in self.specs:
            path = self.root / file
            self.specs[file] = SpecFile(path.read_text()) if path.is_file() else None
        return self.specs[file]

    def source(self, file):
        if file not in self.sources:
            path = self.root / file
            self.sources[file] = SourceFile(path.read_text()) if path.is_file() else None
        return self.sources[file]

    def files(self, crate, folder, ending):
        return sorted(str(it.relative_to(self.root)) for it in (self.root / "crates" / crate / folder).rglob("*" + ending))

    # What a path of specs/ names

    def item_at(self, path, name):
        """The item of this name in the module of this path, or None, as for a lemma."""
        if path[0] != "Rattle" or path[1] not in self.crates:
            return "kit", path[1] if path[0] == "Rattle" else path[0], name
        crate, rest = path[1], path[3:]
        if path[2] != "specs":
            return None
        if rest and rest[0] in ("declared", "contracts"):
            return self.declared(crate, rest[1:], name)
        for length in range(len(rest), 0, -1):
            file = f"crates/{crate}/specs/{'/'.join(rest[:length])}.antt"
            if self.spec(file) is not None:
                return self.defined(file, rest[length] if length < len(rest) else name)
        return self.shared(crate, rest, name)

    def declared(self, crate, path, name):
        """The type that a path behind `declared` names, or the constant."""
        for length in range(len(path) - 1, 0, -1):
            file = self.module_file(crate, path[:length])
            if file:
                return self.type_in(file, name if path[length] == "TheConstants" else path[length])
        return None

    def defined(self, file, name):
        """The definition of a name in a file of specs/, also where it takes it from another one for others."""
        spec = self.spec(file)
        owner = spec.owner_of(name)
        if owner is not None:
            return "spec", file, owner.name
        for it in spec.imports:
            if it.is_public and name in it.names:
                return self.item_at(it.path, it.names[name])
        return None

    def shared(self, crate, rest, name):
        """What a crate shares of another one's by `pub use`."""
        lib = self.spec(f"crates/{crate}/specs/Lib.antt")
        for it in lib.imports if lib else []:
            if rest and it.alias == rest[0]:
                return self.item_at(it.path + rest[1:], name)
            if not rest and name in it.names:
                return self.item_at(it.path, it.names[name])
        return None

    def named(self, imports, name, dotted):
        """What a name means by lines `use`, and whether it is a constructor."""
        for it in imports:
            if name in it.names:
                item = self.item_at(it.path, it.names[name])
                return item, self.is_constructor(item, it.path, it.names[name])
            if name == it.alias and dotted:
                for more in range(len(dotted)):
                    item = self.item_at(it.path + dotted[:more], dotted[more])
                    if item is not None:
                        return item, self.is_constructor(item, it.path, dotted[more])
        return None, False

    def named_in(self, file, name, dotted=()):
        """The same in a file of specs/, whose own definitions come first."""
        spec = self.spec(file)
        owner = spec.owner_of(name)
        if owner is not None:
            return ("spec", file, owner.name), name in owner.constructors
        return self.named(spec.imports, name, dotted)

    def is_constructor(self, item, path, name):
        if item is None:
            return False
        if item[0] == "kit":
            return name in SMALL_CONSTRUCTORS or name[0].isupper()
        if item[0] == "spec":
            return name in self.spec(item[1]).definitions[item[2]].constructors
        return path[-1] in VARIANTS

    # What a path of src/ names

    def module_file(self, crate, path):
        file = f"crates/{crate}/src/{'/'.join(path)}.rt"
        return file if self.source(file) is not None else None

    def type_in(self, file, name):
        """The type of a name in a file of src/: its own, or one that the file takes from elsewhere."""
        source = self.source(file)
        if name in source.types:
            return "type", file, name
        return self.type_at(crate_of(file), source.uses[name][0]) if name in source.uses else None

    def type_at(self, crate, path):
        """The type that a path `crate::module::Type`, `CRATE::Type` or `module::Type` names."""
        if path[0] in ("crate", "super", "self"):
            path = path[1:]
        elif path[0] in self.crates:
            crate, path = path[0], path[1:]
        elif len(path) > 1 and not self.module_file(crate, path[:1]):
            return None if path[0] in STD else ("kit", path[0], path[-1])
        for length in range(len(path) - 1, 0, -1):
            file = self.module_file(crate, path[:length])
            if file:
                return self.type_in(file, path[length])
        lib = self.module_file(crate, ("lib",))
        return self.type_in(lib, path[0]) if path and lib else None

    def types_of(self, file, mentions):
        """The types that are mentioned in a file of src/, each mention a name, or a name behind a module's."""
        for names in mentions:
            item = self.type_in(file, names[0]) if len(names) == 1 else self.type_at(crate_of(file), names)
            if item is not None:
                yield item

    def is_trait(self, item):
        return item[0] == "type" and self.source(item[1]).types[item[2]].kind == "trait"

    def model_of(self, file, name):
        return next((it for it in self.source(file).blocks if it.trait == "Model" and it.owner == name), None)

    def member_of(self, item, trait, member):
        """A member of a trait, or of the block by which a type meets it."""
        if item[0] != "type":
            return None
        for file in [item[1]] + self.files(crate_of(item[1]), "src", ".rt"):
            for number, block in enumerate(self.source(file).blocks):
                if block.owner == item[2] and block.trait == trait and member in block.members:
                    return "member", file, number, member
        return None

    # What is public

    def is_exported(self, file, name):
        """Whether the crate hands an item of a file of src/ to others."""
        path = file.removeprefix(f"crates/{crate_of(file)}/src/").removesuffix(".rt")
        lib = self.module_file(crate_of(file), ("lib",))
        if lib is None or path == "lib":
            return lib is not None
        module = tuple(path.split("/"))
        if self.source(lib).modules.get(module[0]):
            return True
        return any(is_public and used == module + (name,) for used, is_public in self.source(lib).uses.values())

    def is_type_exported(self, file, name):
        """The same of a type that a file declares or takes from another one of the crate."""
        item = self.type_in(file, name)
        return item is not None and item[0] == "type" and self.is_exported(item[1], item[2])

    def public_functions(self, crate):
        for file in self.files(crate, "src", ".rt"):
            for it in self.source(file).functions:
                if it.is_public and (self.is_type_exported(file, it.owner) if it.owner else self.is_exported(file, it.name)):
                    yield file, it
