"""A model of names: which names of a template no store precedes, what each macro encloses, and what a linter finds.

A tree is gone through in order of execution, and what happens there is listed: uses of names with their attributes,
stores, and the beginnings and ends of regions.
"""

from typing import Dict, List, Optional, Tuple

import trees
from trees import Expression

# What happens, one after the other. A use has its chain of names and its place, a store its name.
USE, STORE, OPEN, CLOSE = "use", "store", "open", "close"


class Walk:
    """What happens in a template, by the rules of the port."""

    def __init__(self):
        self.events: List[Tuple[str, object]] = []
        # For each macro, by its identity, what it encloses; and the macros in order.
        self.closures: Dict[int, Tuple[str, ...]] = {}
        self.macros: List[trees.Macro] = []

    def template(self, body: list) -> "Walk":
        """Goes through a whole template."""
        self.store("self")
        self.body(body)
        return self

    # Events

    def store(self, name: str):
        """A name is stored."""
        self.events.append((STORE, name))

    def open(self):
        """A region begins."""
        self.events.append((OPEN, None))

    def close(self):
        """A region ends."""
        self.events.append((CLOSE, None))

    def region(self, body: list, *stored: str):
        """A region with a body, before which names are stored."""
        self.open()
        for name in stored:
            self.store(name)
        self.body(body)
        self.close()

    # Expressions

    def expression(self, node: Optional[Expression]):
        """An expression that may be absent."""
        if node is not None:
            getattr(self, EXPRESSIONS[type(node)])(node)

    def of_constant(self, _node: trees.Constant):
        """Nothing happens for a literal."""

    def of_variable(self, node: trees.Variable):
        """A name is used."""
        self.events.append((USE, ((node.name,), node.start)))

    def of_attribute(self, node: trees.Attribute):
        """A chain of attributes is used with its name, if it begins at one."""
        chain = [node.name]
        base = node.base
        while type(base) is trees.Attribute:
            chain.append(base.name)
            base = base.base
        if type(base) is trees.Variable:
            self.events.append((USE, ((base.name, *reversed(chain)), base.start)))
        else:
            self.expression(base)

    def of_unary(self, node: trees.Unary):
        """One operand."""
        self.expression(node.operand)

    def of_binary(self, node: trees.Binary):
        """Two operands."""
        self.expression(node.left)
        self.expression(node.right)

    def of_chain(self, node: trees.Chain):
        """A comparison."""
        self.expression(node.first)
        for _, operand in node.rest:
            self.expression(operand)

    def of_conditional(self, node: trees.Conditional):
        """The test comes first."""
        self.expression(node.test)
        self.expression(node.yes)
        self.expression(node.no)

    def of_applied(self, node: trees.Applied):
        """A filter or a test."""
        self.expression(node.operand)
        self.arguments(node.arguments)

    def of_item(self, node: trees.Item):
        """An item."""
        self.expression(node.base)
        self.expression(node.key)

    def of_slice(self, node: trees.Slice):
        """A slice."""
        self.expression(node.base)
        for part in node.parts:
            self.expression(part)

    def of_call(self, node: trees.Call):
        """A call."""
        self.expression(node.callee)
        self.arguments(node.arguments)

    def of_sequence(self, node: trees.Sequence):
        """A list or a tuple."""
        for item in node.items:
            self.expression(item)

    def of_mapping(self, node: trees.Mapping):
        """A map."""
        for key, value in node.pairs:
            self.expression(key)
            self.expression(value)

    def arguments(self, several: List[trees.Argument]):
        """Plain arguments and those of `*` come before the others."""
        named = (trees.KEYWORD, trees.MERGED)
        for argument in [it for it in several if it.kind not in named] + [it for it in several if it.kind in named]:
            self.expression(argument.value)

    def target(self, node: Expression):
        """What is stored, or has an attribute set."""
        if type(node) is trees.Sequence:
            for item in node.items:
                self.target(item)
        elif type(node) is trees.Attribute:
            self.expression(node.base)
        else:
            self.store(node.name)

    # Statements

    def body(self, several: list):
        """Statements one after the other."""
        for node in several:
            getattr(self, STATEMENTS[type(node)])(node)

    def of_data(self, _node: trees.Data):
        """Nothing happens for data."""

    def of_output(self, node: trees.Output):
        """A variable tag."""
        self.expression(node.value)

    def of_for(self, node: trees.For):
        """A loop: its iterable is outside of it."""
        self.expression(node.iterable)
        if node.condition is not None:
            self.open()
            self.target(node.target)
            self.expression(node.condition)
            self.close()
        self.open()
        self.store("loop")
        self.target(node.target)
        self.body(node.body)
        self.close()
        self.region(node.otherwise)

    def of_if(self, node: trees.If):
        """A condition."""
        self.expression(node.test)
        self.region(node.body)
        self.region(node.otherwise)

    def of_with(self, node: trees.With):
        """A scope."""
        self.open()
        for target, value in node.pairs:
            self.expression(value)
            self.target(target)
        self.body(node.body)
        self.close()

    def of_set(self, node: trees.Set):
        """A value before its target."""
        self.expression(node.value)
        self.target(node.target)

    def of_set_block(self, node: trees.SetBlock):
        """A body, then filters, then the target."""
        self.region(node.body)
        self.expression(node.filters)
        self.target(node.target)

    def of_filter_block(self, node: trees.FilterBlock):
        """A body, then filters."""
        self.region(node.body)
        self.expression(node.filters)

    def of_autoescape(self, node: trees.Autoescape):
        """A flag, then a body."""
        self.expression(node.flag)
        self.region(node.body)

    def of_block(self, node: trees.Block):
        """A block."""
        self.region(node.body, "super")

    def of_file(self, node):
        """A tag that names another template, and no more."""
        self.expression(node.file)

    def of_import(self, node: trees.Import):
        """An import tag."""
        self.expression(node.file)
        self.target(node.target)

    def of_from(self, node: trees.From):
        """A from tag."""
        self.expression(node.file)
        for _, name in node.names:
            self.store(name)

    def of_macro(self, node: trees.Macro):
        """A macro's name is stored before its region."""
        self.store(node.name)
        self.macros.append(node)
        self.macro(node)

    def of_call_block(self, node: trees.CallBlock):
        """A call, then its macro."""
        self.expression(node.call)
        self.macro(node.macro)

    def of_do(self, node: trees.Do):
        """A call."""
        self.expression(node.call)

    def of_leave(self, _node: trees.Leave):
        """Nothing happens for `break` and `continue`."""

    def macro(self, node: trees.Macro):
        """The region of a macro, which is kept with what it encloses."""
        self.open()
        self.store("caller")
        start = len(self.events)
        self.parameters(node.parameters)
        self.body(node.body)
        self.closures[id(node)] = tuple(sorted({it[0] for it, _ in free(self.events[start:])}, key=str.encode))
        self.close()

    def parameters(self, several: list):
        """Parameters from the last to the first, each default before its parameter."""
        for name, default in reversed(several):
            self.expression(default)
            self.store(name)


class TheirWalk(Walk):
    """What the other program finds: it misses parts, and takes some stores too early."""

    def of_slice(self, node: trees.Slice):
        """What is sliced is missed."""
        for part in node.parts:
            self.expression(part)

    def target(self, node: Expression):
        """The base of an attribute is missed."""
        if type(node) is trees.Sequence:
            for item in node.items:
                self.target(item)
        elif type(node) is trees.Variable:
            self.store(node.name)

    def of_for(self, node: trees.For):
        """The iterable and the filter are looked at within the loop."""
        self.open()
        self.store("loop")
        self.expression(node.iterable)
        self.target(node.target)
        self.expression(node.condition)
        self.body(node.body)
        self.close()
        self.region(node.otherwise)

    def of_with(self, node: trees.With):
        """Targets come before their values."""
        self.open()
        for target, value in node.pairs:
            self.target(target)
            self.expression(value)
        self.body(node.body)
        self.close()

    def of_set(self, node: trees.Set):
        """The target comes before the value."""
        self.target(node.target)
        self.expression(node.value)

    def of_set_block(self, node: trees.SetBlock):
        """The target comes first, and filters are missed."""
        self.target(node.target)
        self.region(node.body)

    def of_filter_block(self, node: trees.FilterBlock):
        """Filters are missed."""
        self.region(node.body)

    def of_autoescape(self, node: trees.Autoescape):
        """The flag is missed."""
        self.region(node.body)

    def of_file(self, node):
        """The name of the other template is missed."""

    def of_import(self, node: trees.Import):
        """The name of the other template is missed."""
        self.target(node.target)

    def of_from(self, node: trees.From):
        """The name of the other template is missed."""
        for _, name in node.names:
            self.store(name)

    def parameters(self, several: list):
        """All parameters are stored before the defaults."""
        for name, _ in several:
            self.store(name)
        for _, default in several:
            self.expression(default)


# The method for each kind of node.
EXPRESSIONS = {
    trees.Constant: "of_constant",
    trees.Variable: "of_variable",
    trees.Unary: "of_unary",
    trees.Binary: "of_binary",
    trees.Chain: "of_chain",
    trees.Conditional: "of_conditional",
    trees.Applied: "of_applied",
    trees.Attribute: "of_attribute",
    trees.Item: "of_item",
    trees.Slice: "of_slice",
    trees.Call: "of_call",
    trees.Sequence: "of_sequence",
    trees.Mapping: "of_mapping",
}
STATEMENTS = {
    trees.Data: "of_data",
    trees.Output: "of_output",
    trees.For: "of_for",
    trees.If: "of_if",
    trees.With: "of_with",
    trees.Set: "of_set",
    trees.SetBlock: "of_set_block",
    trees.FilterBlock: "of_filter_block",
    trees.Autoescape: "of_autoescape",
    trees.Block: "of_block",
    trees.Extends: "of_file",
    trees.Include: "of_file",
    trees.Import: "of_import",
    trees.From: "of_from",
    trees.Macro: "of_macro",
    trees.CallBlock: "of_call_block",
    trees.Do: "of_do",
    trees.Leave: "of_leave",
}


def free(events: list) -> list:
    """The uses of which no store of the first name precedes in a region still open."""
    regions, found = [set()], []
    for kind, what in events:
        if kind == USE:
            if not any(what[0][0] in it for it in regions):
                found.append(what)
        elif kind == STORE:
            regions[-1].add(what)
        elif kind == OPEN:
            regions.append(set())
        else:
            regions.pop()
    return found


def show(walk: Walk) -> str:
    """What `mjc names` prints for a template."""
    chains = [chain for chain, _ in free(walk.events)]
    plain = sorted({it[0] for it in chains}, key=str.encode)
    nested = sorted({".".join(it) for it in chains}, key=str.encode)
    return "".join([f"plain {it}\n" for it in plain] + [f"nested {it}\n" for it in nested])


def findings(walk: Walk) -> list:
    """What a linter finds, as a text with a place: names that are free, at their first mention, and unused macros."""
    first: Dict[str, int] = {}
    for chain, start in free(walk.events):
        first[chain[0]] = min(start, first.get(chain[0], start))
    found = [("free {} at {}", name, first[name]) for name in sorted(first, key=str.encode)]
    used = {what[0][0] for kind, what in walk.events if kind == USE}
    unused = [it for it in walk.macros if it.name not in used]
    return found + [("macro {} unused at {}", it.name, it.start) for it in sorted(unused, key=lambda it: it.start)]
