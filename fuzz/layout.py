"""A model of code: which instructions a tree has, in order, and where its jumps lead.

An instruction is printed as it is added. One that jumps has its place put in once this is known.
"""

from typing import Dict, List, Optional, Tuple

import rules
import trees
import values
from names import TheirWalk, Walk
from trees import Expression
from values import quote

OPERATORS = {
    "StringConcat", "Add", "Sub", "Mul", "Div", "IntDiv", "Rem", "Pow", "Eq", "Ne", "Lt", "Lte", "Gt", "Gte", "In",
}  # fmt: skip
MOST_IDS, NO_ID = 50, 255
WITH_LOOP_VARIABLE, RECURSIVE = 1, 2
MACRO_CALLER = 2
GREATEST_HINT = 2**63


class Loop:
    """A loop whose code is being made: where it asks for its next item, and the jumps that leave it."""

    def __init__(self, start: int):
        self.start = start
        self.leaving: List[int] = []


class Layout:
    """A list of instructions, with what is open while it is made."""

    def __init__(self, shared: "Template"):
        self.shared = shared
        self.choice = shared.choice
        self.steps: List[str] = []
        # What is open, the innermost last: a loop, or the instructions that close something.
        self.open: list = []
        self.ids: Dict[str, Dict[str, int]] = {"ApplyFilter": {}, "PerformTest": {}}

    # Instructions

    def add(self, step: str) -> int:
        """Adds an instruction, and answers its place."""
        self.steps.append(step)
        return len(self.steps) - 1

    def jump_here(self, *places: int):
        """Lets the jumps at these places lead behind the last instruction."""
        for place in places:
            self.steps[place] = f"{self.steps[place]}({len(self.steps)})"

    def constant(self, value: values.Value):
        """Loads a constant."""
        self.add(f"LoadConst({values.show(value)})")

    def named(self, instruction: str, name: str):
        """Adds an instruction that has a name alone."""
        self.add(f"{instruction}({quote(name)})")

    def id_of(self, instruction: str, name: str) -> int:
        """The id of a filter's or test's name in this list."""
        known = self.ids[instruction]
        if name not in known:
            if len(known) == MOST_IDS:
                return NO_ID
            known[name] = len(known)
        return known[name]

    # Expressions

    def expression(self, node: Expression):
        """The code of an expression."""
        if node.constant is not None:
            self.constant(node.constant)
        else:
            getattr(self, EXPRESSIONS[type(node)])(node)

    def expressions(self, several) -> int:
        """The code of several expressions, and how many they are."""
        for node in several:
            self.expression(node)
        return len(several)

    def of_variable(self, node: trees.Variable):
        """A variable."""
        self.named("Lookup", node.name)

    def of_unary(self, node: trees.Unary):
        """An operator with one operand."""
        self.expression(node.operand)
        self.add(node.name)

    def of_binary(self, node: trees.Binary):
        """An operator with two operands, of which `and` and `or` may skip the right one."""
        self.expression(node.left)
        if node.name in OPERATORS:
            self.expression(node.right)
            self.add(node.name)
            return
        skip = self.add("JumpIfFalseOrPop" if node.name == "and" else "JumpIfTrueOrPop")
        self.expression(node.right)
        self.jump_here(skip)

    def of_chain(self, node: trees.Chain):
        """A comparison of three operands or more, each of which is taken once."""
        self.expression(node.first)
        failing = []
        for name, operand in node.rest[:-1]:
            self.expression(operand)
            self.add(f"CompareAndPreserve({name})")
            failing.append(self.add("JumpIfFalseOrPop"))
        name, operand = node.rest[-1]
        self.expression(operand)
        for step in ("In", "Not") if name == "NotIn" else (name,):
            self.add(step)
        end = self.add("Jump")
        self.jump_here(*failing)
        self.add("Swap")
        self.add("DiscardTop")
        self.jump_here(end)

    def of_conditional(self, node: trees.Conditional):
        """An if expression."""
        self.expression(node.test)
        skip = self.add("JumpIfFalse")
        self.expression(node.yes)
        end = self.add("Jump")
        self.jump_here(skip)
        if node.no is None:
            self.constant(values.SILENT)
        else:
            self.expression(node.no)
        self.jump_here(end)

    def of_applied(self, node: trees.Applied):
        """A filter or a test. The innermost filter of a block has its operand on the stack."""
        if node.operand is not None:
            self.expression(node.operand)
        count = self.arguments(node.arguments, 1)
        self.add(f"{node.instruction}({quote(node.name)}, {count}, {self.id_of(node.instruction, node.name)})")

    def of_attribute(self, node: trees.Attribute):
        """An attribute."""
        self.expression(node.base)
        self.named("GetAttr", node.name)

    def of_item(self, node: trees.Item):
        """An item."""
        self.expression(node.base)
        self.expression(node.key)
        self.add("GetItem")

    def of_slice(self, node: trees.Slice):
        """A slice."""
        self.expression(node.base)
        for part in node.parts:
            if part is None:
                self.constant(values.NONE)
            else:
                self.expression(part)
        self.add("Slice")

    def of_sequence(self, node: trees.Sequence):
        """A list or a tuple."""
        self.add(f"Build{node.kind.capitalize()}({self.expressions(node.items)})")

    def of_mapping(self, node: trees.Mapping):
        """A map."""
        for pair in node.pairs:
            self.expressions(pair)
        self.add(f"BuildMap({len(node.pairs)})")

    def of_call(self, node: trees.Call, caller: Optional[trees.Macro] = None):
        """A call, perhaps with a macro that it hands over."""
        block = called_block(node)
        callee = node.callee
        if block is not None:
            self.add("BeginCapture(Capture)")
            self.named("CallBlock", block)
            self.add("EndCapture")
        elif type(callee) is trees.Variable:
            self.add(f"CallFunction({quote(callee.name)}, {self.arguments(node.arguments, 0, caller)})")
        elif type(callee) is trees.Attribute:
            self.expression(callee.base)
            self.add(f"CallMethod({quote(callee.name)}, {self.arguments(node.arguments, 1, caller)})")
        else:
            self.expression(callee)
            self.add(f"CallObject({self.arguments(node.arguments, 1, caller)})")

    def arguments(self, several: List[trees.Argument], waiting: int, caller: Optional[trees.Macro] = None) -> str:
        """The code of arguments, before which `waiting` operands stand, and how many there are as it is printed."""
        batches = 0
        for argument in several:
            if argument.kind == trees.SPREAD:
                batches += self.close_batch("BuildList", waiting) + 1
                waiting = 0
                self.expression(argument.value)
            elif argument.kind == trees.PLAIN:
                self.expression(argument.value)
                waiting += 1
        named = [it for it in several if it.kind in (trees.KEYWORD, trees.MERGED)]
        if named or caller:
            self.named_arguments(named, caller)
            waiting += 1
        if not batches:
            return str(waiting)
        self.add(f"UnpackLists({batches + self.close_batch('BuildList', waiting)})")
        return "none"

    def close_batch(self, instruction: str, waiting: int) -> int:
        """Makes one batch of what waits, if anything does, and answers how many batches that is."""
        if not waiting:
            return 0
        self.add(f"{instruction}({waiting})")
        return 1

    def named_arguments(self, several: List[trees.Argument], caller: Optional[trees.Macro]):
        """The code of keyword arguments and those of `**`, which is one value."""
        if not caller and all(it.kind == trees.KEYWORD and type(it.value) is trees.Constant for it in several):
            self.constant(values.mapping("kwargs", [(values.text(it.name), it.value.constant) for it in several]))
            return
        batches = waiting = 0
        for argument in several:
            if argument.kind == trees.MERGED:
                batches += self.close_batch("BuildKwargs", waiting) + 1
                waiting = 0
            else:
                self.constant(values.text(argument.name))
                waiting += 1
            self.expression(argument.value)
        if caller:
            self.constant(values.text("caller"))
            self.macro(caller)
            waiting += 1
        if batches:
            self.add(f"MergeKwargs({batches + self.close_batch('BuildKwargs', waiting)})")
        else:
            self.add(f"BuildKwargs({waiting})")

    def macro(self, node: trees.Macro):
        """The code of a macro, which is jumped over, and what makes a value of it."""
        skip = self.add("Jump")
        start = len(self.steps)
        for name, default in reversed(node.parameters):
            if default is not None:
                self.add("DupTop")
                self.add("IsUndefined")
                given = self.add("JumpIfFalse")
                self.add("DiscardTop")
                self.expression(default)
                self.jump_here(given)
            self.named("StoreLocal", name)
        outer, self.open = self.open, []
        self.body(node.body)
        self.open = outer
        self.add("Return")
        self.jump_here(skip)
        closure = self.shared.closure(node)
        for name in closure:
            if name != "caller":
                self.named("Enclose", name)
        self.add("GetClosure")
        self.constant(values.sequence("list", [values.text(name) for name, _ in node.parameters]))
        self.add(f"BuildMacro({quote(node.name)}, {start}, {MACRO_CALLER if 'caller' in closure else 0})")

    # Statements

    def body(self, several: list):
        """The code of statements one after the other."""
        for node in several:
            getattr(self, STATEMENTS[type(node)])(node)

    def target(self, node: Expression):
        """Stores the value on the stack."""
        if type(node) is trees.Attribute:
            self.expression(node.base)
            self.named("SetAttr", node.name)
        elif type(node) is trees.Sequence:
            self.add(f"UnpackList({len(node.items)})")
            for item in node.items:
                self.target(item)
        else:
            self.named("StoreLocal", node.name)

    def of_data(self, node: trees.Data):
        """Data."""
        self.named("EmitRaw", node.text)
        self.shared.count_data(self, node.text)

    def of_output(self, node: trees.Output):
        """A variable tag. Three forms of calls have code of their own."""
        value = node.value
        if type(value) is trees.Call and self.special_call(value):
            return
        self.expression(value)
        self.add("Emit")

    def special_call(self, call: trees.Call) -> bool:
        """The code of the output of a call that has its own, if it does."""
        block = called_block(call)
        if block is not None:
            self.named("CallBlock", block)
            return True
        name = call.callee.name if type(call.callee) is trees.Variable else ""
        if name == "super" and not call.arguments:
            self.add("FastSuper")
            return True
        if name != "loop" or len(call.arguments) != 1:
            return False
        if call.arguments[0].kind == trees.PLAIN:
            self.expression(call.arguments[0].value)
        elif self.choice.ours(rules.RECURSION):
            return False
        else:
            self.arguments(call.arguments, 0)
        self.add("FastRecurse")
        return True

    def of_for(self, node: trees.For):
        """A loop."""
        if node.condition is None:
            self.expression(node.iterable)
        else:
            self.filtered(node)
        flags = WITH_LOOP_VARIABLE | (RECURSIVE if node.is_recursive else 0)
        loop = self.start_loop(flags)
        self.target(node.target)
        self.open.append(loop)
        self.body(node.body)
        self.open.pop()
        self.end_loop(loop, bool(node.otherwise))
        if node.otherwise:
            skip = self.add("JumpIfFalse")
            self.body(node.otherwise)
            self.jump_here(skip)

    def start_loop(self, flags: int) -> Loop:
        """Begins a loop over the value on the stack."""
        self.add(f"PushLoop({flags})")
        loop = Loop(len(self.steps))
        loop.leaving.append(self.add("Iterate"))
        return loop

    def end_loop(self, loop: Loop, asks: bool = False):
        """Ends a loop, and asks whether it had no item if that is needed."""
        self.add(f"Jump({loop.start})")
        self.jump_here(*loop.leaving)
        if asks:
            self.add("PushDidNotIterate")
        self.add("PopLoopFrame")

    def filtered(self, node: trees.For):
        """The list of those items for which a loop's condition holds."""
        self.constant(values.Value("int", 0))
        self.expression(node.iterable)
        loop = self.start_loop(0)
        self.add("DupTop")
        self.target(node.target)
        self.expression(node.condition)
        drop = self.add("JumpIfFalse")
        self.add("Swap")
        self.constant(values.Value("int", 1))
        self.add("Add")
        kept = self.add("Jump")
        self.jump_here(drop)
        self.add("DiscardTop")
        self.jump_here(kept)
        self.end_loop(loop)
        self.add("BuildList(none)")

    def of_if(self, node: trees.If):
        """A condition."""
        self.expression(node.test)
        skip = self.add("JumpIfFalse")
        self.body(node.body)
        if node.otherwise:
            end = self.add("Jump")
            self.jump_here(skip)
            self.body(node.otherwise)
            skip = end
        self.jump_here(skip)

    def enclosed(self, start: str, body: list, *closing: str):
        """A body between an instruction and those that close what it opens, which leaving a loop needs too."""
        self.add(start)
        self.open.append(closing)
        self.body(body)
        self.open.pop()
        self.add(closing[0])

    def of_with(self, node: trees.With):
        """A scope."""
        self.add("PushWith")
        for target, value in node.pairs:
            self.expression(value)
            self.target(target)
        self.open.append(("PopFrame",))
        self.body(node.body)
        self.open.pop()
        self.add("PopFrame")

    def of_set(self, node: trees.Set):
        """An assignment of a value."""
        self.expression(node.value)
        self.target(node.target)

    def of_set_block(self, node: trees.SetBlock):
        """An assignment of what a body writes."""
        self.enclosed("BeginCapture(Capture)", node.body, "EndCapture", "DiscardTop")
        if node.filters is not None:
            self.expression(node.filters)
        self.target(node.target)

    def of_filter_block(self, node: trees.FilterBlock):
        """Filters of what a body writes."""
        self.enclosed("BeginCapture(Capture)", node.body, "EndCapture", "DiscardTop")
        self.expression(node.filters)
        self.add("Emit")

    def of_autoescape(self, node: trees.Autoescape):
        """A body with another flag."""
        self.expression(node.flag)
        self.enclosed("PushAutoEscape", node.body, "PopAutoEscape")

    def of_block(self, node: trees.Block):
        """A block, the body of which is a list of its own."""
        self.named("CallBlock", node.name)
        self.shared.block(node)

    def of_extends(self, node: trees.Extends):
        """An extends tag."""
        self.expression(node.file)
        self.add("LoadBlocks")

    def include(self, file: Expression, ignores_missing: bool = False):
        """What another template writes."""
        self.expression(file)
        self.add(f"Include({'true' if ignores_missing else 'false'})")

    def of_include(self, node: trees.Include):
        """An include tag."""
        self.include(node.file, node.ignores_missing)

    def drop(self, rule: str):
        """Drops the value on the stack, which the other program leaves there."""
        if self.choice.ours(rule):
            self.add("DiscardTop")

    def of_import(self, node: trees.Import):
        """An import tag."""
        self.add("BeginCapture(Capture)")
        self.add("PushWith")
        self.include(node.file)
        self.add("EndCapture")
        self.drop(rules.CAPTURED)
        self.add("ExportLocals")
        self.add("PopFrame")
        self.target(node.target)

    def of_from(self, node: trees.From):
        """A from tag."""
        self.add("BeginCapture(Discard)")
        self.add("PushWith")
        self.include(node.file)
        for name, _ in node.names:
            self.named("Lookup", name)
        self.add("PopFrame")
        for _, name in reversed(node.names):
            self.named("StoreLocal", name)
        self.add("EndCapture")
        self.drop(rules.CAPTURED)

    def of_macro(self, node: trees.Macro):
        """A macro."""
        self.macro(node)
        self.named("StoreLocal", node.name)

    def of_call_block(self, node: trees.CallBlock):
        """A call with a macro."""
        self.of_call(node.call, node.macro)
        self.add("Emit")

    def of_do(self, node: trees.Do):
        """A call for its effect."""
        self.of_call(node.call)
        self.drop(rules.VALUE_OF_DO)

    def of_leave(self, node: trees.Leave):
        """`break` or `continue`: what is open within the loop is closed first, the innermost first."""
        loops = [it for it in self.open if isinstance(it, Loop)]
        if not loops:
            # The other program leaves a jump without a place for a `break` that is in no loop.
            if node.word == "break":
                self.add("Jump(0)")
            return
        within = self.open[self.open.index(loops[-1]) + 1 :]
        if within and self.choice.ours(rules.LEAVING):
            for closing in reversed(within):
                for step in closing:
                    self.add(step)
        if node.word == "break":
            loops[-1].leaving.append(self.add("Jump"))
        else:
            self.add(f"Jump({loops[-1].start})")


EXPRESSIONS = {
    trees.Variable: "of_variable",
    trees.Unary: "of_unary",
    trees.Binary: "of_binary",
    trees.Chain: "of_chain",
    trees.Conditional: "of_conditional",
    trees.Applied: "of_applied",
    trees.Attribute: "of_attribute",
    trees.Item: "of_item",
    trees.Slice: "of_slice",
    trees.Call: "of_call",
    trees.Sequence: "of_sequence",
    trees.Mapping: "of_mapping",
}
STATEMENTS = {
    trees.Data: "of_data",
    trees.Output: "of_output",
    trees.For: "of_for",
    trees.If: "of_if",
    trees.With: "of_with",
    trees.Set: "of_set",
    trees.SetBlock: "of_set_block",
    trees.FilterBlock: "of_filter_block",
    trees.Autoescape: "of_autoescape",
    trees.Block: "of_block",
    trees.Extends: "of_extends",
    trees.Include: "of_include",
    trees.Import: "of_import",
    trees.From: "of_from",
    trees.Macro: "of_macro",
    trees.CallBlock: "of_call_block",
    trees.Do: "of_do",
    trees.Leave: "of_leave",
}


class Template:
    """The lists of a template and of its blocks, and the hint for its output."""

    def __init__(self, choice: rules.Rules):
        self.choice = choice
        self.main = Layout(self)
        self.blocks: Dict[str, Layout] = {}
        self.bytes = 0
        self.ours: Optional[Walk] = None
        self.theirs: Optional[TheirWalk] = None

    def whole(self, body: list, walk: Walk) -> "Template":
        """Makes the code of a template, through which `walk` has gone by the rules of the port."""
        self.ours = walk
        if walk.closures:
            self.theirs = TheirWalk()
            self.theirs.template(body)
        self.main.body(body)
        return self

    def closure(self, node: trees.Macro) -> Tuple[str, ...]:
        """The names that a macro encloses, in order of their bytes."""
        ours, theirs = self.ours.closures[id(node)], self.theirs.closures[id(node)]
        if ours == theirs:
            return ours
        return ours if self.choice.ours(rules.CLOSURE) else theirs

    def block(self, node: trees.Block):
        """Makes the code of a block."""
        self.blocks[node.name] = made = Layout(self)
        made.body(node.body)

    def count_data(self, where: Layout, data: str):
        """Counts data outside of blocks for the hint."""
        if where is self.main:
            self.bytes += len(data.encode())

    def hint(self) -> int:
        """The least power of two at or over twice the bytes of data."""
        return min(1 << max(2 * self.bytes - 1, 0).bit_length(), GREATEST_HINT)

    def show(self) -> str:
        """What is printed for the template."""
        lists = [("template", self.main)]
        lists += [(f"block {name}", self.blocks[name]) for name in sorted(self.blocks, key=str.encode)]
        return "".join(show_list(head, it.steps) for head, it in lists) + f"hint {self.hint()}\n"


def show_list(head: str, steps: List[str]) -> str:
    """A list of instructions behind its head."""
    return f"{head}\n" + "".join([f"{at} {step}\n" for at, step in enumerate(steps)])


def show_expression(node: Expression, choice: rules.Rules) -> str:
    """What is printed for an expression by itself."""
    made = Layout(Template(choice))
    made.expression(node)
    return show_list("expression", made.steps)


def called_block(node: trees.Call) -> Optional[str]:
    """The name of the block that a call writes, as `self.name()`, or None."""
    callee = node.callee
    if type(callee) is trees.Attribute and type(callee.base) is trees.Variable and callee.base.name == "self":
        return callee.name
    return None
