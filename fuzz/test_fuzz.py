"""Tests of the model of both programs and of what makes texts, by worked examples."""

import re
import sys
import unittest
from random import Random

import comparison
import config
import model
import rules
import run
import texts
import wrong
import wrong_code  # noqa: F401
import wrong_texts  # noqa: F401
from programs import Answer
from syntaxes import SYNTAXES, odd

sys.setrecursionlimit(20_000)
LINES = ["--line-statement", "#", "--line-comment", "##"]
STEP = re.compile(r", (?=\d+ [A-Z])")
POWERS = "{{ x**y**z }}"


def text(source: str, *options: str, ours: bool = True) -> model.Text:
    """A text by the model of one of the programs."""
    return model.Text(source, config.of_options(list(options)), ours)


def code(steps: str, hint: int = 1, **blocks: str) -> str:
    """Printed code of a template with its blocks. Instructions stand side by side with commas between."""
    lists = {"template": steps, **{f"block {name}": it for name, it in blocks.items()}}
    lines = [line for head, it in lists.items() for line in [head, *filter(None, STEP.split(it))]]
    return "".join(f"{line}\n" for line in lines) + f"hint {hint}\n"


class Case(unittest.TestCase):
    """What the model gives for a text."""

    def code(self, source: str, steps: str, *options: str, hint: int = 1, ours: bool = True, **blocks: str):
        """The code of a template is this."""
        self.assertEqual(text(source, *options, ours=ours).code(), model.Wanted(0, code(steps, hint, **blocks)))

    def refused(self, source: str, *kinds: str, ours: bool = True):
        """A template is refused, as one of these kinds."""
        found = text(source, ours=ours).code()
        self.assertEqual((found.status, found.out, found.kinds()), (1, "", set(kinds or ["SyntaxError"])))

    def accepted(self, source: str, ours: bool = True):
        """A template is accepted."""
        self.assertEqual(text(source, ours=ours).code().status, 0)

    def expression(self, source: str, steps: str, ours: bool = True):
        """The code of an expression by itself is this."""
        wanted = "".join(f"{it}\n" for it in ["expression", *STEP.split(steps)])
        self.assertEqual(model.expression(source, ours)[0], model.Wanted(0, wanted))

    def expression_refused(self, source: str, kind: str = "SyntaxError", ours: bool = True):
        """An expression by itself is refused."""
        found = model.expression(source, ours)[0]
        self.assertEqual((found.status, found.out, found.kinds()), (1, "", {kind}))

    def tokens(self, source: str, wanted: list, *options: str, ours: bool = True):
        """The tokens of a text are these."""
        found = text(source, *options, ours=ours).tokens()
        self.assertEqual(found, model.Wanted(0, "".join(f"{it}\n" for it in wanted)))

    def data(self, source: str, wanted: list, *options: str, ours: bool = True):
        """The data of a text is this."""
        found = [it.value for it in text(source, *options, ours=ours).lexer.tokens if it.kind == "TemplateData"]
        self.assertEqual(found, wanted)


class Tokens(Case):
    """The model of the tokenizer."""

    def test_tags(self):
        wanted = ['1:0-1:6 TemplateData("Hello ")', "1:6-1:8 VariableStart", '1:9-1:13 Ident("name")']
        self.tokens("Hello {{ name }}!", [*wanted, "1:14-1:16 VariableEnd", '1:16-1:17 TemplateData("!")'])
        wanted = ["1:0-1:2 VariableStart", '1:3-1:7 Ident("name")', "1:8-1:11 VariableEnd"]
        self.tokens("{{ name -}}  x", [*wanted, '1:13-1:14 TemplateData("x")'])
        wanted = ['1:0-1:1 TemplateData("é")', "1:1-1:3 VariableStart", '1:4-1:5 Ident("é")', "1:6-1:8 VariableEnd"]
        self.tokens("é{{ é }}", wanted)
        self.tokens("", [])

    def test_trimmed_line_end(self):
        wanted = ["1:0-1:2 BlockStart", '1:3-1:6 Ident("set")', '1:7-1:8 Ident("a")', "1:9-1:10 Assign"]
        wanted += ["1:11-1:12 Int(1)", "1:13-1:15 BlockEnd", '2:0-2:1 TemplateData("x")']
        self.tokens("{% set a = 1 %}\r\nx", wanted, "--trim-blocks")

    def test_raw(self):
        wanted = ['1:10-1:14 TemplateData("a")', '1:27-1:28 TemplateData("b")']
        self.tokens("{% raw -%}  a {%- endraw %}b", wanted)
        self.data("{% raw %}{{ a }}{% endraw %}", ["{{ a }}"])
        self.data("{% raw %}{% endraw %}", [""])
        self.data(". raw -\t}a. endraw -\t}", ["a"], "--block", ".", "\t}")
        self.data(". raw \t}a. endraw \t}", [], "--block", ".", "\t}")

    def test_comments(self):
        self.tokens("a {#-#} b", ['1:0-1:1 TemplateData("a")', '1:7-1:9 TemplateData(" b")'])
        self.data("{#+-}  x", ["  x"], "--comment", "{#", "-}")
        self.data("{#+-}  x", ["x"], "--comment", "{#", "-}", ours=False)

    def test_line_statement(self):
        wanted = ["1:0-1:1 BlockStart", '1:2-1:5 Ident("set")', '1:6-1:7 Ident("a")', "1:8-1:9 Assign"]
        wanted += ["1:10-1:11 Int(1)", "1:11-2:0 BlockEnd", '2:0-2:1 TemplateData("x")']
        self.tokens("# set a = 1\r\nx", wanted, "--line-statement", "#")

    def test_lines(self):
        source = "## This block is\n## completely removed\n<ul>\n  # for item in [1, 2]\n"
        source += "    ## this is a comment that is also removed including leading whitespace\n"
        source += "    <li>{{ item }}\n  # endfor\n</ul>"
        self.data(source, ["<ul>\n", "    <li>", "\n", "</ul>"], *LINES)
        self.data("## a\r\nb", ["b"], *LINES)
        self.data("## a\r\nb", ["\nb"], *LINES, ours=False)

    def test_markers(self):
        wanted = ["1:0-1:3 VariableStart", '1:4-1:5 Ident("x")', "1:6-1:9 VariableEnd"]
        self.tokens("{%% x %%}", wanted, "--variable", "{%%", "%%}")
        wanted = ["1:0-1:1 VariableStart", '1:1-1:2 Ident("x")', "1:2-1:3 VariableEnd"]
        self.tokens("«x»", wanted, "--variable", "«", "»")

    def test_far_places(self):
        self.assertIn("65535:0-65535:2 VariableStart", text("\n" * 65_600 + "{{ x }}").tokens().out)
        self.assertIn("1:65535-1:65535 VariableStart", text("x" * 70_000 + "{{ y }}").tokens().out)

    def test_refused(self):
        for source in ("1.5", "1e5", "1_", "0b2", "0x", "340282366920938463463374607431768211456", "'a' ?", ""):
            self.expression_refused(source)
        self.expression_refused("'\\q'", "BadEscape")
        self.expression_refused("'\\é'", "BadEscape")
        for source in ("{{ ( }}", '{{ "a }}', "{% raw %}x", "{{ x"):
            self.refused(source)

    def test_syntax_that_cannot_be_built(self):
        for words in ("--block {{ }", "--line-comment {#", "--comment  -", "--variable a "):
            options = words.split(" ")
            for command in ("tokens", "code", "names", "lint"):
                self.assertEqual(text("x", *options).answer(command), model.INVALID)
        self.code("x", '0 EmitRaw("x")', "--block", "", "a", "--block", "b", "c", hint=2)

    def test_place_of_a_refusal(self):
        found = text("a\n{{ x $ }}").tokens()
        wanted = '1:0-2:0 TemplateData("a\\n")\n2:0-2:2 VariableStart\n2:3-2:4 Ident("x")\n'
        self.assertEqual(found, model.Wanted(1, wanted, {"mjc: SyntaxError at 2:5"}))
        for source, place in (("{{ x $ }}", "1:5"), ("{{ x y $ }}", "1:5"), ("{{ a", "1:3"), ("{% do x %}", "1:6")):
            self.assertEqual(text(source).code(), model.Wanted(1, "", {f"mjc: SyntaxError at {place}"}))
        self.assertEqual(model.expression("")[0], model.Wanted(1, "", {"mjc: SyntaxError at 0:0"}))
        self.assertEqual(text("{{ x", ours=False).code().refusals, {"mjc: SyntaxError at "})

    def test_refusal_behind_a_string(self):
        self.expression_refused("'a' $")
        self.expression("'a' $", '0 LoadConst("a")', ours=False)
        self.expression_refused("'\\n' $", ours=False)
        self.expression_refused("'a' 'b' $", ours=False)
        self.expression_refused("'a' 1.5", ours=False)
        self.refused("{{ 'a' '\\q' }}", "BadEscape")
        self.refused("{{ 'a' '\\q' }}", "SyntaxError", ours=False)


class Expressions(Case):
    """The model of expressions, and of their code."""

    def test_operators(self):
        self.code("{{ a and b }}", '0 Lookup("a"), 1 JumpIfFalseOrPop(3), 2 Lookup("b"), 3 Emit')
        steps = '0 Lookup("a"), 1 Lookup("b"), 2 CompareAndPreserve(Lt), 3 JumpIfFalseOrPop(7), 4 Lookup("c"), 5 Lt'
        self.code("{{ a < b < c }}", f"{steps}, 6 Jump(9), 7 Swap, 8 DiscardTop, 9 Emit")
        self.expression("a if b else c", '0 Lookup("b"), 1 JumpIfFalse(4), 2 Lookup("a"), 3 Jump(5), 4 Lookup("c")')
        self.expression("a if b", '0 Lookup("b"), 1 JumpIfFalse(4), 2 Lookup("a"), 3 Jump(5), 4 LoadConst(silent)')

    def test_constants(self):
        self.code("{{ 1 > 2 > x }}", "0 LoadConst(false), 1 Emit")
        self.code("{{ -2**2 }}", "0 LoadConst(4), 1 Emit")
        self.code("{{ [1, 2] }}", "0 LoadConst([1, 2]), 1 Emit")
        self.code("{{ [[1]] }}", "0 LoadConst([1]), 1 BuildList(1), 2 Emit")
        self.code("{{ 1 / 2 }}", "0 LoadConst(1), 1 LoadConst(2), 2 Div, 3 Emit")
        self.expression("1 not in [2]", "0 LoadConst(true)")
        steps = "0 LoadConst(false), 1 JumpIfFalseOrPop(5), 2 LoadConst(1), 3 LoadConst(0), 4 IntDiv"
        self.expression("false and 1 // 0", steps)

    def test_powers(self):
        self.expression("2**3**2", "0 LoadConst(512)")
        self.expression("2**3**2", "0 LoadConst(64)", ours=False)
        self.expression("(2**3)**2", "0 LoadConst(64)")
        self.expression("-2**2", "0 LoadConst(4)")
        self.expression("x**y**z", '0 Lookup("x"), 1 Lookup("y"), 2 Lookup("z"), 3 Pow, 4 Pow')
        self.expression("x**y**z", '0 Lookup("x"), 1 Lookup("y"), 2 Pow, 3 Lookup("z"), 4 Pow', ours=False)
        self.expression("2 * x ** 2 ** 3", '0 LoadConst(2), 1 Lookup("x"), 2 LoadConst(8), 3 Pow, 4 Mul')

    def test_parts(self):
        steps = '0 Lookup("foo"), 1 LoadConst(1), 2 GetItem, 3 LoadConst(0), 4 GetItem'
        self.expression("foo.1.0", steps)
        self.expression("x[1:]", '0 Lookup("x"), 1 LoadConst(1), 2 LoadConst(none), 3 LoadConst(none), 4 Slice')
        self.code("{{ x|a . b }}", '0 Lookup("x"), 1 ApplyFilter("a . b", 1, 0), 2 Emit')

    def test_bare_arguments(self):
        self.refused("{{ a is defined if b }}")
        self.accepted("{{ 1 if a is defined else 2 }}")

    def test_calls(self):
        steps = '0 Lookup("y"), 1 LoadConst("b"), 2 Lookup("x"), 3 BuildKwargs(1), 4 BuildList(1), 5 UnpackLists(2)'
        self.code("{{ f(b=x, *y) }}", f'{steps}, 6 CallFunction("f", none), 7 Emit')
        self.refused("{{ f(b=x, y) }}")
        steps = '0 Lookup("a"), 1 Lookup("b"), 2 MergeKwargs(1), 3 BuildList(1), 4 UnpackLists(2)'
        self.expression("f(*a, **b)", f'{steps}, 5 CallFunction("f", none)')
        self.expression('f(a=1, b="x")', '0 LoadConst(kwargs{"a": 1, "b": "x"}), 1 CallFunction("f", 1)')
        self.expression("self.b(x)", '0 BeginCapture(Capture), 1 CallBlock("b"), 2 EndCapture')

    def test_call_of_loop(self):
        self.code("{{ loop(x) }}", '0 Lookup("x"), 1 FastRecurse')
        self.code("{{ loop(*x) }}", '0 Lookup("x"), 1 UnpackLists(1), 2 CallFunction("loop", none), 3 Emit')
        self.code("{{ loop(*x) }}", '0 Lookup("x"), 1 UnpackLists(1), 2 FastRecurse', ours=False)

    def test_ids(self):
        source = "".join(f"{{{{ x|f{at} }}}}" for at in [*range(51), 0])
        found = re.findall(r"ApplyFilter\(.*, (\d+)\)", text(source).code().out)
        self.assertEqual(found, [*map(str, range(50)), "255", "0"])

    def test_depth(self):
        def nested(before: str, after: str, accepted: int, accepted_upstream: int):
            self.assertEqual(model.expression(before * accepted + "x" + after * accepted)[0].status, 0)
            self.expression_refused(before * (accepted + 1) + "x" + after * (accepted + 1))
            many = accepted_upstream + 1
            self.assertEqual(model.expression(before * many + "x" + after * many, False)[0].status, int(many < 500))

        nested("(", ")", 149, 74)
        nested("x[", "]", 298, 148)
        nested("not ", "", 298, 500)
        nested("-", "", 298, 500)
        nested("x**", "", 298, 500)
        nested("x if x else ", "", 298, 500)

    def test_depth_of_statements(self):
        def source(before: str, count: int, after: str = "", inner: str = "") -> str:
            return before * count + inner + after * count

        self.accepted(source("{% if a %}", 299, "{% endif %}", "x"))
        self.refused(source("{% if a %}", 300, "{% endif %}", "x"))
        self.accepted(source("{% if a %}", 149, "{% endif %}", "x"), ours=False)
        self.refused(source("{% if a %}", 150, "{% endif %}", "x"), ours=False)
        self.accepted("{% if a %}" + source("{% elif a %}", 298) + "{% endif %}")
        self.refused("{% if a %}" + source("{% elif a %}", 299) + "{% endif %}")
        self.accepted("{% set " + source("(", 299, ")", "x") + " = y %}")
        self.refused("{% set " + source("(", 300, ")", "x") + " = y %}")

    def test_many_arguments(self):
        found = text("{{ f(" + ",".join("x" * 2000) + ") }}").code()
        self.assertEqual(found.out.count("\n"), 2004)
        self.refused("{{ f(" + ",".join("x" * 2001) + ") }}")


class Statements(Case):
    """The model of statements, and of their code."""

    def test_outputs(self):
        self.code("Hello {{ name }}!", '0 EmitRaw("Hello "), 1 Lookup("name"), 2 Emit, 3 EmitRaw("!")', hint=16)
        self.code("", "")

    def test_conditions(self):
        steps = '0 Lookup("a"), 1 JumpIfFalse(4), 2 EmitRaw("x"), 3 Jump(5), 4 EmitRaw("y")'
        self.code("{% if a %}x{% else %}y{% endif %}", steps, hint=4)
        steps = '0 Lookup("a"), 1 JumpIfFalse(3), 2 Jump(6), 3 Lookup("b"), 4 JumpIfFalse(6), 5 EmitRaw("y")'
        self.code("{% if a %}{% elif b %}y{% endif %}", steps, hint=2)
        steps = '0 EmitRaw("<div>\\n"), 1 LoadConst(true), 2 JumpIfFalse(4), 3 EmitRaw("    yay\\n")'
        steps += ', 4 EmitRaw("</div>")'
        source = "<div>\n  {% if True %}\n    yay\n  {% endif %}\n</div>"
        self.code(source, steps, "--trim-blocks", "--lstrip-blocks", hint=64)

    def test_loops(self):
        steps = '0 LoadConst(0), 1 Lookup("y"), 2 PushLoop(0), 3 Iterate(14), 4 DupTop, 5 StoreLocal("x")'
        steps += ', 6 Lookup("x")'
        steps += ", 7 JumpIfFalse(12), 8 Swap, 9 LoadConst(1), 10 Add, 11 Jump(13), 12 DiscardTop, 13 Jump(3)"
        steps += ', 14 PopLoopFrame, 15 BuildList(none), 16 PushLoop(1), 17 Iterate(22), 18 StoreLocal("x")'
        steps += ', 19 Lookup("x"), 20 Emit, 21 Jump(17), 22 PopLoopFrame'
        self.code("{% for x in y if x %}{{ x }}{% endfor %}", steps)
        steps = '0 Lookup("y"), 1 PushLoop(3), 2 Iterate(7), 3 StoreLocal("x"), 4 Lookup("x"), 5 FastRecurse, 6 Jump(2)'
        self.code("{% for x in y recursive %}{{ loop(x) }}{% endfor %}", f"{steps}, 7 PopLoopFrame")

    def test_leaving(self):
        head = '0 Lookup("y"), 1 PushLoop(1), 2 Iterate({}), 3 StoreLocal("x")'
        source = "{% for x in y %}{% with %}{% break %}{% endwith %}{% endfor %}"
        ours = ", 4 PushWith, 5 PopFrame, 6 Jump(9), 7 PopFrame, 8 Jump(2), 9 PopLoopFrame"
        theirs = ", 4 PushWith, 5 Jump(8), 6 PopFrame, 7 Jump(2), 8 PopLoopFrame"
        self.code(source, head.format(9) + ours)
        self.code(source, head.format(8) + theirs, ours=False)
        steps = ', 4 BeginCapture(Capture), 5 EmitRaw("a"), 6 EndCapture, 7 DiscardTop, 8 Jump(2), 9 EndCapture'
        source = "{% for x in y %}{% set s %}a{% continue %}{% endset %}{% endfor %}"
        self.code(source, head.format(12) + steps + ', 10 StoreLocal("s"), 11 Jump(2), 12 PopLoopFrame', hint=2)
        steps = ', 4 Lookup("z"), 5 PushAutoEscape, 6 PopAutoEscape, 7 Jump(10), 8 PopAutoEscape, 9 Jump(2)'
        source = "{% for x in y %}{% autoescape z %}{% break %}{% endautoescape %}{% endfor %}"
        self.code(source, f"{head.format(10)}{steps}, 10 PopLoopFrame")

    def test_leaving_an_else(self):
        self.refused("{% for x in y %}{% else %}{% break %}{% endfor %}")
        self.accepted("{% for x in y %}{% else %}{% break %}{% endfor %}", ours=False)
        steps = '0 Lookup("b"), 1 PushLoop(1), 2 Iterate(14), 3 StoreLocal("a"), 4 Lookup("y"), 5 PushLoop(1)'
        steps += ', 6 Iterate(9), 7 StoreLocal("x"), 8 Jump(6), 9 PushDidNotIterate, 10 PopLoopFrame'
        steps += ", 11 JumpIfFalse(13), 12 Jump(14)"
        source = "{% for a in b %}{% for x in y %}{% else %}{% break %}{% endfor %}{% endfor %}"
        self.code(source, f"{steps}, 13 Jump(2), 14 PopLoopFrame")

    def test_assignments(self):
        steps = '0 Lookup("x"), 1 UnpackList(2), 2 StoreLocal("a"), 3 Lookup("b"), 4 SetAttr("c")'
        self.code("{% set a, b.c = x %}", steps)
        steps = '0 BeginCapture(Capture), 1 EmitRaw("x"), 2 EndCapture, 3 ApplyFilter("f", 1, 0), 4 LoadConst(1)'
        self.code("{% filter f|g(1) %}x{% endfilter %}", f'{steps}, 5 ApplyFilter("g", 2, 1), 6 Emit', hint=2)
        for assigned in ("loop = a", "loop.a = b", "a, = 1", "= 1"):
            self.refused(f"{{% set {assigned} %}}")
        self.refused("{% with a = 1, %}{% endwith %}")

    def test_value_of_do(self):
        self.code("{% do f(x) %}", '0 Lookup("x"), 1 CallFunction("f", 1), 2 DiscardTop')
        self.code("{% do f(x) %}", '0 Lookup("x"), 1 CallFunction("f", 1)', ours=False)
        self.refused("{% do x %}")

    def test_macros(self):
        steps = '0 Jump(9), 1 DupTop, 2 IsUndefined, 3 JumpIfFalse(6), 4 DiscardTop, 5 Lookup("a"), 6 StoreLocal("b")'
        steps += ', 7 StoreLocal("a"), 8 Return, 9 Enclose("a"), 10 GetClosure, 11 LoadConst(["a", "b"])'
        steps += ', 12 BuildMacro("f", 1, 0), 13 StoreLocal("f")'
        self.code("{% macro f(a, b=a) %}{% endmacro %}", steps)
        steps = '0 LoadConst("caller"), 1 Jump(4), 2 EmitRaw("x"), 3 Return, 4 GetClosure, 5 LoadConst([])'
        steps += ', 6 BuildMacro("caller", 2, 0), 7 BuildKwargs(1), 8 CallFunction("f", 1), 9 Emit'
        self.code("{% call f() %}x{% endcall %}", steps, hint=2)
        steps = '0 Jump(4), 1 CallFunction("caller", 0), 2 Emit, 3 Return, 4 GetClosure, 5 LoadConst([])'
        self.code("{% macro m() %}{{ caller() }}{% endmacro %}", f'{steps}, 6 BuildMacro("m", 1, 2), 7 StoreLocal("m")')

    def test_macro_within_a_macro(self):
        steps = '0 Jump(14), 1 Jump(7), 2 Lookup("x"), 3 Emit, 4 Lookup("a"), 5 Emit, 6 Return, 7 Enclose("a")'
        steps += ', 8 Enclose("x"), 9 GetClosure, 10 LoadConst([]), 11 BuildMacro("b", 2, 0), 12 StoreLocal("b")'
        steps += ', 13 Return, 14 Enclose("a"), 15 Enclose("x"), 16 GetClosure'
        steps += ', 17 LoadConst([]), 18 BuildMacro("a", 1, 0)'
        source = "{% macro a() %}{% macro b() %}{{ x }}{{ a }}{% endmacro %}{% endmacro %}"
        self.code(source, f'{steps}, 19 StoreLocal("a")')

    def test_blocks(self):
        source = "{% block a %}{% block b %}x{% endblock b %}{% endblock %}"
        self.code(source, '0 CallBlock("a")', a='0 CallBlock("b")', b='0 EmitRaw("x")')
        self.refused("{% block a required %}x{% endblock %}")
        self.refused("{% macro m() %}{% block a %}{% endblock %}{% endmacro %}")
        self.accepted("{% block a required %} {# c #} {% endblock %}")
        source = "{% block a required %}x{{ '\\q' }}{% endblock %}"
        self.refused(source)
        self.refused(source, "BadEscape", ours=False)

    def test_other_templates(self):
        ours = '0 BeginCapture(Capture), 1 PushWith, 2 LoadConst("a"), 3 Include(false), 4 EndCapture, 5 DiscardTop'
        self.code("{% import 'a' as m %}", f'{ours}, 6 ExportLocals, 7 PopFrame, 8 StoreLocal("m")')
        ours = '0 BeginCapture(Discard), 1 PushWith, 2 LoadConst("a"), 3 Include(false), 4 Lookup("x"), 5 Lookup("z")'
        ours += ', 6 PopFrame, 7 StoreLocal("z"), 8 StoreLocal("y"), 9 EndCapture'
        self.code("{% from 'a' import x as y, z %}", f"{ours}, 10 DiscardTop")
        self.code("{% from 'a' import x as y, z %}", ours, ours=False)
        self.code("{% include 'a' ignore missing %}", '0 LoadConst("a"), 1 Include(true)')
        self.code("{% extends 'p' %}", '0 LoadConst("p"), 1 LoadBlocks')
        self.refused("{% from 'a' import _x %}")
        self.accepted("{% from 'a' import x as _x %}")
        self.accepted("{% from 'a' import %}")

    def test_target_of_an_import(self):
        for target in ("42", "(a, b)", "[1]"):
            self.refused(f"{{% import 'a' as {target} %}}")
            self.assertEqual(text(f"{{% import 'a' as {target} %}}", ours=False).code().status, model.STOPPED)
        self.accepted("{% import 'a' as [b, c.d] %}")

    def test_other_markers(self):
        options = ["--block", "\\BLOCK{", "}", "--variable", "\\VAR{", "}", "--comment", "\\#{", "}"]
        steps = '0 Lookup("a"), 1 JumpIfFalse(4), 2 Lookup("a"), 3 Emit'
        self.code("\\BLOCK{if a}\\VAR{a}\\BLOCK{endif}", steps, *options)

    def test_several_faults(self):
        self.refused("{{ a b '\\q' }}")
        self.refused("{{ a '\\q' }}", "BadEscape")
        self.refused("{% do a '\\q' %}", "BadEscape", "SyntaxError")
        self.refused("{{ f(5='\\q') }}", "BadEscape", "SyntaxError")
        self.refused("{{ 1.5'\\q' }}")
        self.refused("{{ 1.5'\\q' }}", "BadEscape", "SyntaxError", ours=False)


class Names(Case):
    """The model of names, of closures and of what a linter finds."""

    def names(self, source: str, plain: str, nested: str = "", ours: bool = True):
        """The names of a template are these, as `mjc names` prints them."""
        wanted = [f"plain {it}\n" for it in plain.split()] + [f"nested {it}\n" for it in (nested or plain).split()]
        self.assertEqual(text(source, ours=ours).names().out, "".join(wanted))

    def findings(self, source: str, *wanted: str):
        """A linter finds this."""
        found = model.Wanted(3 if wanted else 0, "".join(f"{it}\n" for it in wanted))
        self.assertEqual(text(source).lint(), found)

    def test_names(self):
        self.names("{% set x = foo %}{{ x }}{{ bar.baz }}", "bar foo", "bar.baz foo")
        self.names("{% for x in loop.items if loop %}{{ loop }}{% endfor %}", "loop", "loop loop.items")
        self.names("{% with a = a %}{{ a }}{% endwith %}", "a")
        self.names("{% set a.b = c %}", "a c")
        self.names("{% if a %}{% set x = 1 %}{% endif %}{{ x }}", "a x")
        self.names("{{ x[a:b] }}", "a b x")
        self.names("{% macro f(a=b, c=a) %}{{ f }}{{ caller }}{% endmacro %}", "a b")
        self.names('{{ a.b.c }}{{ a["k"].d }}', "a", "a a.b.c")
        self.names("{{ 1 > 2 > x }}", "x")

    def test_names_upstream(self):
        self.names("{{ x[a:b] }}{% set c = c %}{% include d %}", "a b", ours=False)
        self.names("{% filter f(a) %}{{ b }}{% endfilter %}{% set a.b = c %}", "b c", ours=False)

    def test_not_as_a_variable(self):
        self.names("{{ a + not in not }}", "a not")
        self.names("{{ a and not b }}", "a b")

    def test_closures(self):
        found = text("{% macro f(a, b=a) %}{% include c %}{% endmacro %}")
        self.assertEqual(list(found.walk.closures.values()), [("a", "c")])
        self.assertNotIn("Enclose", text("{% macro f() %}{% include c %}{% endmacro %}", ours=False).code().out)

    def test_findings(self):
        source = "{% macro f() %}{{ a }}{% endmacro %}{{ b.a }}{{ a }}"
        self.findings(source, "free a at 1:18", "free b at 1:39", "macro f unused at 1:3")
        self.findings("{% macro f(a) %}{{ a }}{% endmacro %}{{ f(1) }}{{ a }}", "free a at 1:50")
        self.findings("{% set x = 1 %}{{ x }}")
        self.assertEqual(text("{{ x").lint(), model.Wanted(1, "", {"mjc: SyntaxError at 1:3"}))


class Rules(Case):
    """Which rules choose for a text."""

    def used(self, source: str, *wanted: str):
        """These rules choose for a text."""
        found = text(source, ours=False)
        found.code()
        self.assertEqual(sorted(found.choice.used), sorted(wanted))

    def test_rules(self):
        self.used("{{ x**y }}")
        self.used(POWERS, rules.POWERS)
        self.used("{% do f() %}{% import 'a' as b %}", rules.VALUE_OF_DO, rules.CAPTURED)
        self.used("{% for x in y %}{% break %}{% endfor %}")
        self.used("{% macro f(a) %}{{ b }}{% endmacro %}")
        self.used("{% macro f(a=a) %}{{ b }}{% endmacro %}", rules.CLOSURE)
        self.used("{% block a required %} {% endblock %}")

    def test_readings_that_need_no_rule(self):
        made = texts.make(7, 40, 20, 0)
        syntax, shared = config.of_options(made.options), 0
        for source in made.templates + made.broken:
            theirs = model.Text(source, syntax, False)
            ours, alone = model.Text(source, syntax, other=theirs), model.Text(source, syntax)
            shared += ours.reading is theirs.reading
            for command in comparison.COMMANDS:
                self.assertEqual(ours.answer(command), alone.answer(command))
            self.assertEqual(ours.choice.used, alone.choice.used)
        self.assertTrue(0 < shared < 60)

    def test_unknown_letters(self):
        self.assertTrue(comparison.has_unknown_letter("a\u0378"))
        self.assertFalse(comparison.has_unknown_letter("aé日\ue000"))


class Answers(unittest.TestCase):
    """When an answer is what is wanted."""

    def test_answers(self):
        wanted = model.Wanted(1, "a\n", {"mjc: SyntaxError at 1:5"})
        found = Answer(1, "a\n", "mjc: SyntaxError at 1:5")
        self.assertTrue(wanted.is_met(found))
        for other in (
            found._replace(status=2),
            found._replace(out="a"),
            found._replace(refusal="mjc: BadEscape at 1:5"),
            found._replace(refusal="mjc: SyntaxError at 1:6"),
            found._replace(refusal="SyntaxError at 1:5"),
            found._replace(refusal=""),
        ):
            self.assertFalse(wanted.is_met(other))
        self.assertTrue(wanted._replace(refusals={"mjc: SyntaxError at "}).is_met(found))
        self.assertFalse(wanted._replace(refusals={"mjc: BadEscape at "}).is_met(found))
        self.assertFalse(model.Wanted(0, "").is_met(Answer(0, "", "more")))


class Runs(unittest.TestCase):
    """The numbers of several runs."""

    def test_sums(self):
        one = {"first": 1, "last": 9, "processes": 2, "seconds": 4, "differences": 1}
        runs = [{**one, "counts": {comparison.BROKEN: 6, "x": 1}}, {**one, "counts": {comparison.ALONE: 2, "x": 3}}]
        wanted = ["texts 8", "  broken texts: 6", "  templates alone: 2", "  x: 4", "differences: 2"]
        self.assertEqual(run.report_counts(runs), wanted)
        wanted = "seeds 1 to 9, 2 processes, 4 seconds, 6 texts, 2 in a second"
        self.assertEqual(run.report_run(runs[0]), wanted)


class Wrong(unittest.TestCase):
    """What wrong programs change."""

    def changed(self, name: str, old: str, new: str, command: str = "code"):
        """A wrong program prints `new` where the real one prints `old`."""
        call = wrong.Call(command, [], "", None, lambda *_: wrong.Output(0, old, ""))
        self.assertEqual(wrong.FAULTS[name](call), wrong.Output(0, new, ""))

    def test_code(self):
        old = code('0 Lookup("a"), 1 JumpIfFalse(4), 2 CallFunction("f", 0), 3 Emit, 4 EmitRaw("x")', b="0 Emit")
        new = code(
            '0 Lookup("a"), 1 JumpIfFalse(5), 2 CallFunction("f", 0), 3 DiscardTop, 4 Emit, 5 EmitRaw("x")', b="0 Emit"
        )
        self.changed("an output's value is dropped before it is emitted", old, new)
        self.changed("a condition that fails skips one instruction more", old, old.replace("False(4)", "False(5)"))
        old = code('0 Jump(2), 1 Return, 2 GetClosure, 3 BuildMacro("m", 1, 0), 4 Jump(0)')
        new = code('0 PopFrame, 1 Jump(3), 2 Return, 3 GetClosure, 4 BuildMacro("m", 2, 0), 5 PopFrame, 6 Jump(0)')
        self.changed("a scope more is closed before each jump", old, new)
        self.changed("`not in` is `in`", code("0 In, 1 Not, 2 Jump(2)"), code("0 In, 1 Jump(1)"))

    def test_other_output(self):
        self.changed("nested names have no attributes", "plain a\nnested a.b\n", "plain a\nnested a\n", "names")
        self.changed("the last event is missing", "Emit\nPopFrame\nfinished\n", "Emit\nfinished\n", "replay")
        token = "1:0-1:2 VariableStart\n"
        self.changed("columns are counted from 1", token, "1:1-1:3 VariableStart\n", "tokens")
        self.changed("columns are counted from 1", token, token, "code")

    def test_many(self):
        self.assertGreater(len(wrong.FAULTS), 100)


class Texts(unittest.TestCase):
    """What makes texts."""

    def test_a_seed_makes_the_same(self):
        for seed in range(20):
            self.assertEqual(texts.make(seed, 3, 3, 3, 3), texts.make(seed, 3, 3, 3, 3))

    def test_options(self):
        random = Random("options")
        for _ in range(200):
            made = odd(random)
            self.assertEqual(config.of_options(made.options())[:6], config.of_options(made.spelled(random))[:6])

    def test_twenty_syntaxes(self):
        self.assertEqual(len({tuple(it.options()) for it in SYNTAXES}), 20)
        for syntax in SYNTAXES:
            starts = [it[0] for it in syntax.markers]
            starts += [it for it in (syntax.line_statement, syntax.line_comment) if it]
            self.assertEqual(len(set(starts)), len(starts))


if __name__ == "__main__":
    unittest.main()
