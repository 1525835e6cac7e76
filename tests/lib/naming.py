"""What each item of the repository names, and what a function's clauses do."""

from lib.contracts import words
from lib.definitions import Scope, names_in, tokens, used

SAID = ("Value", "view")
BUILT_IN = {"Type", "Unit", "tt", "×", "⊥", "∥", "∥₁", "record", "let", "elim", "then", "else", "None", "Some", "Ok", "Err"}


class Naming:
    """What items and clauses name. `unknown` are the names that mean nothing: of a syntax that this script does not know."""

    def __init__(self, repository):
        self.repository, self.known, self.unknown = repository, {}, set()

    def of(self, item):
        """The items that an item names."""
        if item not in self.known:
            kind, file, *rest = item
            if kind == "spec":
                found = self.of_definition(file, rest[0])
            elif kind == "type":
                found = self.of_type(file, rest[0])
            elif kind == "member":
                found = self.of_member(file, self.repository.source(file).blocks[rest[0]], rest[1])
            else:
                found = ()
            self.known[item] = list(dict.fromkeys(found))
        return self.known[item]

    def told(self, item, name):
        """The item that a name means, if any."""
        if item is not None:
            yield item
        elif not name[0].isdigit() and name not in BUILT_IN:
            self.unknown.add(name)

    def of_definition(self, file, name):
        definition = self.repository.spec(file).definitions[name]
        for it, dotted in names_in(definition, lambda it: self.repository.named_in(file, it)[1]):
            yield from self.told(self.repository.named_in(file, it, dotted)[0], it)

    def of_type(self, file, name):
        """The declaration of a type, or the value and view of its model with the fields that the view names."""
        it = self.repository.source(file).types[name]
        model = self.repository.model_of(file, name)
        if model is None:
            yield from self.of_mentions(file, it.mentions)
            return
        for member in SAID:
            yield from self.of_member(file, model, member)
            for token in tokens(model.members[member][2].text):
                yield from self.of_mentions(file, it.fields.get(token.text, []) if token.after_dot else [])

    def of_member(self, file, block, member):
        if block.trait != block.owner:
            yield from self.of_mentions(file, [(block.owner,)])
        yield from self.of_term(file, block.members[member][2].text, block, block.bounds)

    def of_mentions(self, file, mentions):
        """The types that are mentioned in a source, without traits."""
        for item in self.repository.types_of(file, mentions):
            if not self.repository.is_trait(item):
                yield item

    def of_function(self, file, function, labels):
        """The types of a call, and what its clauses with these labels name, or all."""
        yield from self.of_mentions(file, function.mentions)
        if function.owner and "self" in function.parameters:
            yield from self.of_mentions(file, [(function.owner,)])
        for clause in function.clauses:
            if not labels or clause.label in labels or clause.kind == "requires":
                yield from self.of_term(file, clause.term.text, clause.term.block, function.bounds, function.parameters)

    def of_term(self, file, text, block, bounds, parameters=()):
        """What a term of src/ names: a clause, or a member of a model or a trait. `bounds` are the traits of type parameters."""
        imports = (block.imports if block else []) + self.repository.source(file).imports
        yield from self.of_brackets(file, text)
        scope = Scope({"result", "self", *parameters})
        for name, dotted in used(tokens(without_brackets(text)), scope, lambda it: self.repository.named(imports, it, ())[1]):
            item, _ = self.repository.named(imports, name, dotted)
            if item is None and name in bounds:
                yield from self.of_member_named(file, bounds[name], dotted)
            else:
                item = item or next(self.of_member_named(file, bounds.get("Self", []), (name,)), None)
                yield from self.told(item or self.repository.type_in(file, name), name)

    def of_member_named(self, file, traits, dotted):
        """The member of one of the traits, where one is named."""
        for trait in traits if dotted else ():
            for item in self.repository.types_of(file, [(trait,)]):
                found = self.repository.member_of(item, trait, dotted[0])
                if found:
                    yield found

    def of_brackets(self, file, text):
        """`⟦<Type as Trait>⟧.member`: the member of the type's block."""
        for part in text.split("⟦")[1:]:
            inside, after = part.split("⟧", 1)
            names = [it.text for it in words(inside) if it.text[0].isalpha()]
            for item in self.repository.types_of(file, [(names[0],)]):
                found = self.repository.member_of(item, names[-1], tokens(after)[0].text)
                if found:
                    yield found


def without_brackets(text):
    """A term without its `⟦<Type as Trait>⟧`."""
    first, *parts = text.split("⟦")
    return first + "".join("self" + part.split("⟧", 1)[1] for part in parts)
