"""Wrong programs whose code is wrong."""

import re
from typing import List

from wrong import (
    CALLS, before, behind, changed, fault, kind, lists, lists_of, name_of, placed, print_lists, put_before, replaced,
    rewritten, steps, without,
)  # fmt: skip

NUMBER = re.compile(r"LoadConst\((\d+)\)")
CLOSING = {"PopFrame", "PopAutoEscape", "EndCapture"}
# Several instructions that close something and stand before a jump, a line each.
ROW_OF_CLOSING = re.compile(r"((?:(?:PopFrame|PopAutoEscape|EndCapture\nDiscardTop)\n){2,})(?=Jump\()")
CLOSING_OF_ROW = re.compile(r"(?:EndCapture\n)?\w+\n")
DATA = "EmitRaw"

kind("instructions that drop and close")

fault("an output's value is dropped before it is emitted")(
    put_before("DiscardTop", lambda it, at: it[at] == "Emit" and before(it, at) in CALLS)
)
fault("a scope more is closed before each jump")(put_before("PopFrame", lambda it, at: name_of(it[at]) == "Jump"))
fault("the value of a `do` is left")(without(lambda it, at: it[at] == "DiscardTop" and before(it, at) in CALLS))
fault("what an `import` captured is left")(
    replaced(["EndCapture", "DiscardTop", "ExportLocals"], ["EndCapture", "ExportLocals"])
)
fault("leaving a loop closes no scope")(without(lambda it, at: it[at] == "PopFrame" and behind(it, at) == "Jump"))
fault("leaving a loop closes no autoescape")(
    without(lambda it, at: it[at] == "PopAutoEscape" and behind(it, at) in ("Jump", "PopFrame"))
)
fault("leaving a loop keeps what was captured")(
    without(
        lambda it, at: [before(it, at), it[at]] == ["EndCapture", "DiscardTop"] and behind(it, at) in ("Jump", *CLOSING)
    )
)
fault("a comparison that fails keeps its operand")(replaced(["Swap", "DiscardTop"], ["Swap"]))
fault("a comparison that fails drops its result")(replaced(["Swap", "DiscardTop"], ["DiscardTop"]))
fault("a default is taken without a look at the argument")(replaced(["DupTop", "IsUndefined"], ["IsUndefined"]))
fault("an import has no scope of its own")(
    without(lambda it, at: it[at] == "PushWith" and before(it, at) == "BeginCapture")
)
fault("a macro does not return")(without(lambda it, at: it[at] == "Return"))
fault("the last instruction is missing")(lists(lambda it: it[:-1]))


@fault("what is open is closed with the outermost first")
@lists
def closed_backwards(several: List[str]) -> List[str]:
    """What closes before a jump is turned round."""
    joined = "".join(f"{it}\n" for it in several)
    return ROW_OF_CLOSING.sub(lambda it: "".join(reversed(CLOSING_OF_ROW.findall(it[1]))), joined).split("\n")[:-1]


kind("jumps and places")

fault("a condition that fails skips one instruction more")(placed("JumpIfFalse", lambda _at, place: place + 1))
fault("a loop that is over goes on behind its frame")(placed("Iterate", lambda _at, place: place + 1))
fault("a loop's turn begins the loop anew")(placed("Jump", lambda at, place: place - 1 if place < at else place))
fault("a jump forward is one too short")(placed("Jump", lambda at, place: place - 1 if place > at else place))
fault("`and` goes on behind its right side's end")(placed("JumpIfFalseOrPop", lambda _at, place: place + 1))
fault("a macro begins one instruction too late")(placed("BuildMacro", lambda _at, place: place + 1))
fault("places have eight bits")(steps(r"^((?:Jump|Iterate)\w*\()(\d+)", lambda it: f"{it[1]}{int(it[2]) % 256}"))

kind("operators")

fault("`or` is `and`")(steps("^JumpIfTrueOrPop", "JumpIfFalseOrPop"))
fault("`<` in a chain is `<=`")(steps(r"^CompareAndPreserve\(Lt\)", "CompareAndPreserve(Lte)"))
fault("`not in` is `in`")(replaced(["In", "Not"], ["In"]))
fault("`//` is `/`")(steps("^IntDiv$", "Div"))
fault("a negative is the difference to 0")(
    rewritten(lambda it, at: ["LoadConst(0)", "Swap", "Sub"] if it[at] == "Neg" else [it[at]])
)


@fault("a difference has its operands in the other order")
@lists
def swapped_difference(several: List[str]) -> List[str]:
    """`a - b` of two variables is `b - a`."""
    found = list(several)
    for at in range(len(found) - 2):
        if [name_of(it) for it in found[at : at + 3]] == ["Lookup", "Lookup", "Sub"]:
            found[at], found[at + 1] = found[at + 1], found[at]
    return found


@fault("powers group to the left")
@lists
def left_powers(several: List[str]) -> List[str]:
    """Of three plain operands of `**` the first two come first."""
    found = list(several)
    for at in range(len(found) - 4):
        names = [name_of(it) for it in found[at : at + 5]]
        if names[3:] == ["Pow", "Pow"] and all(it in ("Lookup", "LoadConst") for it in names[:3]):
            found[at + 2], found[at + 3] = found[at + 3], found[at + 2]
    return found


kind("constants")


@fault("a quotient of constants is folded")
@rewritten
def folded_quotient(several: List[str], at: int) -> List[str]:
    """`6 / 3` is 2."""
    for begin in range(max(0, at - 2), at + 1):
        numbers = [NUMBER.fullmatch(it) for it in several[begin : begin + 2]]
        if several[begin + 2 : begin + 3] == ["Div"] and all(numbers) and int(numbers[1][1]):
            return [f"LoadConst({int(numbers[0][1]) // int(numbers[1][1])})"] if begin == at else []
    return [several[at]]


@fault("a list within a list is folded")
@rewritten
def folded_list(several: List[str], at: int) -> List[str]:
    """A list of one constant list is a constant."""
    if several[at] == "BuildList(1)" and at and several[at - 1].startswith("LoadConst(["):
        return []
    if several[at].startswith("LoadConst([") and several[at + 1 : at + 2] == ["BuildList(1)"]:
        return [f"LoadConst([{several[at][10:-1]}])"]
    return [several[at]]


@fault("a list of constants is built")
@rewritten
def built_list(several: List[str], at: int) -> List[str]:
    """A list of one constant is no constant."""
    one = re.fullmatch(r"LoadConst\(\[([^\[({,]+)\]\)", several[at])
    return [f"LoadConst({one[1]})", "BuildList(1)"] if one else [several[at]]


fault("a keyword map is a map")(steps(r"^LoadConst\(kwargs{", "LoadConst({"))
fault("a missing else is undefined")(steps(r"^LoadConst\(silent\)", "LoadConst(undefined)"))
fault("the step of a slice is 1")(replaced(["LoadConst", "Slice"], ["LoadConst(1)", "Slice"]))
fault("a constant's text has its tabs as they are")(steps(r"\\t", "\t"))
fault("large integers are cut")(steps(r"\d{20,}", lambda it: str(int(it[0]) % 2**64)))
fault("a form feed of a constant is an f")(steps("\x0c", "f"))
fault("a truth value is looked up")(steps(r"^LoadConst\(true\)$", 'Lookup("true")'))

kind("arguments and ids")

fault("the operand of a filter is not counted")(
    steps(r"^(ApplyFilter\(.*, )(\d+)(, \d+\))$", lambda it: f"{it[1]}{int(it[2]) - 1}{it[3]}")
)
fault("a filter's name has no space")(steps(r"^(ApplyFilter\(\"\w+) *\. *", r"\1."))
fault("a test's name has no space")(steps(r"^(PerformTest\(\"\w+) *\. *", r"\1."))
fault("a method's object is not counted")(steps(r"^(CallMethod\(.*, )(\d+)\)$", lambda it: f"{it[1]}{int(it[2]) - 1})"))
fault("spread arguments are counted as one")(steps(r"^(Call\w+\(.*)none\)$", r"\g<1>1)"))
fault("one batch more is unpacked")(steps(r"^UnpackLists\((\d+)\)$", lambda it: f"UnpackLists({int(it[1]) + 1})"))
fault("one map fewer is merged")(steps(r"^MergeKwargs\((\d+)\)$", lambda it: f"MergeKwargs({int(it[1]) - 1})"))
fault("the ids of names are not bounded")(steps(r"^((?:Apply|Perform)\w+\(.*, )255\)$", r"\g<1>50)"))


@fault("filters and tests have their ids together")
@lists
def shared_ids(several: List[str]) -> List[str]:
    """Ids of both are counted in one row."""
    known: dict = {}
    found = []
    for step in several:
        if name_of(step) in ("ApplyFilter", "PerformTest") and not step.endswith(", 255)"):
            head, _, number = step[:-1].rpartition(", ")
            place = known.setdefault((name_of(step), number), len(known))
            step = f"{head}, {place})"
        found.append(step)
    return found


@fault("the ids of names go on over all lists")
@changed("code")
def ids_of_all_lists(out: str) -> str:
    """A block's ids begin where those of the list before it ended."""
    known, found = 0, {}
    for head, several in lists_of(out).items():
        ids = {it[:-1].rpartition(", ")[2] for it in several if name_of(it) == "ApplyFilter"}
        found[head] = [later_id(it, known) for it in several]
        known += len(ids)
    return print_lists(found)


def later_id(step: str, by: int) -> str:
    """A filter with a later id."""
    head, _, number = step[:-1].rpartition(", ")
    return f"{head}, {min(int(number) + by, 255)})" if name_of(step) == "ApplyFilter" else step


kind("statements")

fault("a recursive loop is none")(steps(r"^PushLoop\(3\)", "PushLoop(1)"))
fault("a filtered loop has a loop variable in its first pass")(steps(r"^PushLoop\(0\)", "PushLoop(1)"))
fault("a loop asks for items once its frame is gone")(
    replaced(["PushDidNotIterate", "PopLoopFrame"], ["PopLoopFrame", "PushDidNotIterate"])
)
fault("`super()` is a call like others")(replaced(["FastSuper"], ['CallFunction("super", 0)', "Emit"]))
fault("a missing template is never ignored")(steps(r"^Include\(true\)", "Include(false)"))
fault("what a `from` captures is kept")(steps(r"^BeginCapture\(Discard\)", "BeginCapture(Capture)"))
fault("empty data is left out")(without(lambda it, at: it[at] == 'EmitRaw("")'))


@fault("any call of `loop` with one argument recurses")
@rewritten
def any_recursion(several: List[str], at: int) -> List[str]:
    """Also with a spread or a keyword one."""
    calls = ('CallFunction("loop", 1)', 'CallFunction("loop", none)')
    if several[at] in calls and behind(several, at) == "Emit":
        return ["FastRecurse"]
    return [] if several[at] == "Emit" and at and several[at - 1] in calls else [several[at]]


@fault("data that stands side by side is joined")
@rewritten
def joined_data(several: List[str], at: int) -> List[str]:
    """Two pieces of data are one."""
    if name_of(several[at]) == DATA and before(several, at) == DATA:
        return []
    if name_of(several[at]) == DATA and behind(several, at) == DATA:
        return [several[at][:-2] + several[at + 1][9:]]
    return [several[at]]


@fault("targets are stored from the last to the first")
@lists
def targets_backwards(several: List[str]) -> List[str]:
    """Two plain targets are stored in the other order."""
    found = list(several)
    for at in range(len(found) - 2):
        if found[at] == "UnpackList(2)" and {name_of(it) for it in found[at + 1 : at + 3]} == {"StoreLocal"}:
            found[at + 1], found[at + 2] = found[at + 2], found[at + 1]
    return found


kind("macros and blocks")

fault("a macro's last name is not enclosed")(
    without(lambda it, at: name_of(it[at]) == "Enclose" and behind(it, at) == "GetClosure")
)
fault("a macro is never told that it uses `caller`")(steps(r"^(BuildMacro\(.*), 2\)$", r"\1, 0)"))
fault("each macro is told that it uses `caller`")(steps(r"^(BuildMacro\(.*), 0\)$", r"\1, 2)"))


@fault("a macro encloses its own name")
@rewritten
def enclosed_name(several: List[str], at: int) -> List[str]:
    """A name more is enclosed, if it is not yet in the list."""
    if several[at] != "GetClosure":
        return [several[at]]
    name = several[at + 2][12:].partition('"')[0]
    return [several[at]] if f'Enclose("{name}")' in several else [f'Enclose("{name}")', several[at]]


@fault("a macro's names of arguments are in the other order")
@rewritten
def arguments_backwards(several: List[str], at: int) -> List[str]:
    """The list of names is turned round."""
    if before(several, at) != "GetClosure":
        return [several[at]]
    return [f"LoadConst([{', '.join(reversed(several[at][11:-2].split(', ')))}])"]


@fault("what a macro encloses is in the other order")
@lists
def enclosed_backwards(several: List[str]) -> List[str]:
    """Each row of enclosed names is turned round."""
    found: List[str] = []
    for step in several:
        at = len(found)
        while name_of(step) == "Enclose" and at and name_of(found[at - 1]) == "Enclose":
            at -= 1
        found.insert(at, step)
    return found


@fault("blocks are in the order in which they stand")
@changed("code")
def blocks_in_order(out: str) -> str:
    """The number that stands last in a block's name decides."""
    made = lists_of(out)
    blocks = sorted((it for it in made if it.startswith("block ")), key=lambda it: int(re.sub(r"\D", "", it) or 0))
    head, *_, hint = made
    return print_lists({it: made[it] for it in [head, *blocks, hint]})


@fault("the last block is missing")
@changed("code")
def no_last_block(out: str) -> str:
    """One list less is printed."""
    made = lists_of(out)
    heads = [it for it in made if it.startswith("block ")]
    return print_lists({head: it for head, it in made.items() if head not in heads[-1:]})


@fault("blocks are written where they stand")
@changed("code")
def blocks_in_place(out: str) -> str:
    """A block that holds one instruction stands in the place of its call."""
    made = lists_of(out)
    main = next(iter(made))
    short = {f'CallBlock("{head[6:]}")': it for head, it in made.items() if head[:6] == "block " and len(it) == 1}
    made[main] = [short[it][0] if it in short else it for it in made[main]]
    return print_lists(made)


kind("the hint")


def hint(count):
    """A fault that counts other bytes for the hint, from the data of each list, the template's first."""

    def change(out: str) -> str:
        made = lists_of(out).values()
        data = [[re.sub(r"\\.", "x", it[9:-2]) for it in several if name_of(it) == DATA] for several in made]
        return re.sub(r"(?m)^hint \d+$", f"hint {1 << max(2 * count(data) - 1, 0).bit_length()}", out)

    return changed("code")(change)


fault("the hint is half of what it has to be")(
    changed("code")(lambda out: re.sub(r"(?m)^hint (\d+)$", lambda it: f"hint {max(1, int(it[1]) // 2)}", out))
)
fault("the hint counts characters")(hint(lambda data: len("".join(data[0]))))
fault("the hint counts the data of blocks")(hint(lambda data: sum(len("".join(it).encode()) for it in data)))
fault("the hint counts one byte more for each piece of data")(
    hint(lambda data: len("".join(data[0]).encode()) + len(data[0]))
)
