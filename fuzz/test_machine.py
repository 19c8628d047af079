"""Tests of the machine and its values by worked examples."""

import unittest
from random import Random

import answers
import literals
import machine
import templates
import values
from values import FALSE, NONE, SILENT, TRUE, UNDEFINED, Value, sequence, text


def number(content):
    """An integer."""
    return Value("int", content)


def listed(*items):
    """A list."""
    return sequence("list", items)


def mapped(*pairs):
    """A map."""
    return values.mapping("map", pairs)


def printed(code: str, given: str) -> str:
    """What a run prints for instructions, with `; ` between, and a file of answers."""
    instructions = [machine.read_instruction(it) for it in code.split("; ")] if code else []
    return machine.show_run(machine.replay(instructions, literals.read_answers(given)))


class Runs(unittest.TestCase):
    """Whole runs."""

    def check(self, code: str, given: str, *lines: str):
        """The run prints these lines."""
        self.assertEqual(printed(code, given), "".join(f"{line}\n" for line in lines))

    LOOP_WITH_ELSE = (
        'Lookup("y"); PushLoop(1); Iterate(7); StoreLocal("x"); Lookup("x"); Emit; Jump(2); PushDidNotIterate; '
        'PopLoopFrame; JumpIfFalse(11); EmitRaw("n")'
    )

    def test_loop_without_items(self):
        lines = ['Lookup("y") <- [] -> ["v"]', 'PushLoop(1) <- ["v"] -> []', "Iterate(7) <- [] -> []"]
        lines += ["PopLoopFrame <- [] -> []"]
        last = ['EmitRaw("n") <- [] -> []', "finished, 7 steps"]
        self.check(self.LOOP_WITH_ELSE, '["v"]\n[]\n[]\n[]\n[]\n', *lines, *last)
        self.check(self.LOOP_WITH_ELSE, '["v"]\n[]\n[]\n[]\n', *lines, "starved, 7 steps")

    def test_spread_arguments(self):
        self.check(
            'Lookup("a"); UnpackLists(1); CallFunction("f", none); Emit',
            '["l"]\n[1, 2]\n["r"]\n[]\n',
            'Lookup("a") <- [] -> ["l"]',
            'UnpackLists(1) <- ["l"] -> [1, 2]',
            'CallFunction("f", none) <- [1, 2] -> ["r"]',
            'Emit <- ["r"] -> []',
            "finished, 4 steps",
        )

    def test_unfit(self):
        code = 'Lookup("x"); UnpackList(2); StoreLocal("a"); StoreLocal("b")'
        self.check(code, '["v"]\n[1]\n', 'Lookup("x") <- [] -> ["v"]', "unfit, 2 steps")
        self.check(
            code,
            '["v"]\n[1, 2]\n[]\nfault\n',
            'Lookup("x") <- [] -> ["v"]',
            'UnpackList(2) <- ["v"] -> [1, 2]',
            'StoreLocal("a") <- [1] -> []',
            'StoreLocal("b") <- [2] -> fault',
            "fault, 4 steps",
        )

    def test_fault_of_an_operator(self):
        self.check("LoadConst(1); LoadConst(0); IntDiv; Emit", "", "fault, 3 steps")

    def test_leaving_a_capture(self):
        self.check(
            'Lookup("y"); PushLoop(1); Iterate(12); StoreLocal("x"); BeginCapture(Capture); EmitRaw("a"); EndCapture; '
            'DiscardTop; Jump(2); EndCapture; StoreLocal("s"); Jump(2); PopLoopFrame',
            '["v"]\n[]\n[1]\n[]\n[]\n[]\n["a"]\n[]\n[]\n',
            'Lookup("y") <- [] -> ["v"]',
            'PushLoop(1) <- ["v"] -> []',
            "Iterate(12) <- [] -> [1]",
            'StoreLocal("x") <- [1] -> []',
            "BeginCapture(Capture) <- [] -> []",
            'EmitRaw("a") <- [] -> []',
            'EndCapture <- [] -> ["a"]',
            "Iterate(12) <- [] -> []",
            "PopLoopFrame <- [] -> []",
            "finished, 11 steps",
        )

    def test_comparison_chain(self):
        code = (
            'Lookup("a"); Lookup("b"); CompareAndPreserve(Lt); JumpIfFalseOrPop(7); Lookup("c"); Lt; Jump(9); Swap; '
            "DiscardTop; Emit"
        )
        lookups = ['Lookup("a") <- [] -> [1]', 'Lookup("b") <- [] -> [2]']
        third = ['Lookup("c") <- [] -> [3]', "Emit <- [true] -> []", "finished, 8 steps"]
        self.check(code, "[1]\n[2]\n[3]\n[]\n", *lookups, *third)
        lookups = ['Lookup("a") <- [] -> [2]', 'Lookup("b") <- [] -> [2]']
        self.check(code, "[2]\n[2]\n[]\n", *lookups, "Emit <- [false] -> []", "finished, 7 steps")

    def test_filtered_loop(self):
        code = (
            'LoadConst(0); Lookup("y"); PushLoop(0); Iterate(14); DupTop; StoreLocal("x"); Lookup("x"); '
            "JumpIfFalse(12); Swap; LoadConst(1); Add; Jump(13); DiscardTop; Jump(3); PopLoopFrame; BuildList(none); "
            'PushLoop(1); Iterate(22); StoreLocal("x"); Lookup("x"); Emit; Jump(17); PopLoopFrame'
        )
        given = "[0]\n[]\n[7]\n[]\n[true]\n[8]\n[]\n[false]\n[9]\n[]\n[1]\n[]\n[]\n[]\n[]\n[]\n"
        self.assertIn("PushLoop(1) <- [[7, 9]] -> []\n", printed(code, given))
        self.assertIn("finished", printed(code, given))

    def test_lists_of_blocks(self):
        lists = machine.read_lists('template\n0 CallBlock("a")\nblock a\n0 EmitRaw("x\x0b(\\n")\n1 Return\nhint 1\n')
        self.assertEqual([it.name for it in lists[None]], ["CallBlock"])
        self.assertEqual(lists["a"][0].parts, (text("x\x0b(\n"),))
        self.assertEqual(lists["a"][1].parts, ())

    def test_nothing(self):
        self.check("", "", "finished, 0 steps")

    def test_operand_order(self):
        self.check(
            'Lookup("x"); Lookup("b"); SetAttr("c")',
            "[1]\n[2]\n[]\n",
            'Lookup("x") <- [] -> [1]',
            'Lookup("b") <- [] -> [2]',
            'SetAttr("c") <- [1, 2] -> []',
            "finished, 3 steps",
        )


class Values(unittest.TestCase):
    """What operators answer."""

    def faults(self, call, *operands):
        """The operator has no result."""
        with self.assertRaises(values.OperatorFault):
            call(*operands)

    def test_range(self):
        self.assertEqual(values.negate(number(2**127)), number(-(2**127)))
        self.faults(values.negate, number(2**127 + 1))
        self.faults(values.arithmetic, "Add", number(2**128 - 1), number(1))
        self.assertEqual(values.arithmetic("Sub", number(0), number(2**127)), number(-(2**127)))
        self.faults(values.arithmetic, "Add", number(1), TRUE)

    def test_division(self):
        for a, b, quotient, rest in [(7, 2, 3, 1), (-7, 2, -4, 1), (7, -2, -3, 1), (-7, -2, 4, 1), (-6, 3, -2, 0)]:
            self.assertEqual(values.arithmetic("IntDiv", number(a), number(b)), number(quotient))
            self.assertEqual(values.arithmetic("Rem", number(a), number(b)), number(rest))
        self.faults(values.arithmetic, "Rem", number(1), number(0))
        self.faults(values.arithmetic, "IntDiv", number(2**128 - 1), number(-1))

    def test_power(self):
        for a, b, found in [(0, 0, 1), (0, 2**128 - 1, 0), (1, 2**127, 1), (-1, 2**128 - 1, -1), (-2, 127, -(2**127))]:
            self.assertEqual(values.arithmetic("Pow", number(a), number(b)), number(found))
        self.faults(values.arithmetic, "Pow", number(2), number(128))
        self.faults(values.arithmetic, "Pow", number(2), number(-1))

    def test_equality(self):
        pairs = [(text("a"), number(1)), (text("b"), NONE)]
        self.assertTrue(values.equals(mapped(*pairs), mapped(*reversed(pairs))))
        self.assertTrue(values.equals(UNDEFINED, SILENT))
        self.assertFalse(values.equals(NONE, SILENT))
        self.assertFalse(values.equals(number(1), TRUE))
        self.assertFalse(values.equals(listed(), sequence("tuple", ())))
        self.assertFalse(values.equals(listed(mapped()), listed(Value("kwargs", ()))))

    def test_order(self):
        self.assertEqual(values.order(text("Z"), text("é")), -1)
        self.assertEqual(values.order(text("\uffff"), text("😀")), -1)
        self.assertEqual(values.order(FALSE, TRUE), -1)
        self.assertEqual(values.order(listed(number(1)), listed(number(1), NONE)), -1)
        self.assertEqual(values.order(listed(number(1), NONE), listed(number(2), NONE)), -1)
        self.assertIsNone(values.order(listed(NONE, number(1)), listed(NONE, number(2))))
        self.assertIsNone(values.order(NONE, NONE))
        self.assertFalse(values.compare("Lte", NONE, NONE))

    def test_containing(self):
        self.assertTrue(values.contains(text("abc"), text("bc")))
        self.assertTrue(values.contains(listed(SILENT), UNDEFINED))
        self.assertTrue(values.contains(mapped((NONE, TRUE)), NONE))
        self.faults(values.contains, text("1"), number(1))
        self.faults(values.contains, number(1), number(1))

    def test_joining(self):
        self.assertEqual(values.concat(text("a\n"), listed(text("b"))), text('a\n["b"]'))
        self.assertEqual(values.concat(SILENT, NONE), text("none"))

    def test_maps_keep_places(self):
        pairs = [(text("a"), number(1)), (text("b"), number(2)), (text("a"), number(3))]
        self.assertEqual(values.show(values.mapping("kwargs", pairs)), 'kwargs{"a": 3, "b": 2}')

    def test_truth(self):
        for value in (UNDEFINED, SILENT, NONE, FALSE, number(0), text(""), listed(), mapped(), Value("kwargs", ())):
            self.assertFalse(values.is_true(value))
        self.assertTrue(values.is_true(listed(NONE)))

    def test_printed_forms_are_read(self):
        shown = '[(), (1,), (-1, "a\\"\\\\\\n"), {none: [true]}, kwargs{"k": silent}, undefined, false]'
        reader = values.Reader(shown)
        self.assertEqual(values.show(reader.part()), shown)
        self.assertTrue(reader.over())


class Files(unittest.TestCase):
    """Files of answers, and templates."""

    def test_answers_are_read_as_written(self):
        random = Random("files")
        for _ in range(500):
            steering = answers.Steering(random, random.choice(answers.MOODS))
            made = [tuple(steering.value() for _ in range(random.randint(0, 3))) for _ in range(3)] + [literals.FAULT]
            self.assertEqual(literals.read_answers(answers.write(made, random)), made)

    def test_bad_lines_are_refused(self):
        for line in answers.BAD_LINES:
            with self.assertRaises(ValueError):
                literals.read_answer(line)

    def test_templates_come_from_seeds_alone(self):
        self.assertEqual(templates.make(7), templates.make(7))
        self.assertNotEqual(templates.make(7), templates.make(8))


if __name__ == "__main__":
    unittest.main()
