"""Blocks to examine, with the answers that the rules ask for (docs/RULES.md).

    python3 tests/examine_cases.py stdin     a script: for each block a comment and a call
    python3 tests/examine_cases.py stdout    the lines that the program must print for it
    python3 tests/examine_cases.py counts    how many blocks there are for each answer

Each answer is written by hand: `done`, or `refused` with number, node and equation. Where cases stand in a
loop, the equation or node may be the loop's own position. Before anything is printed, every answer is
compared with the one that examine_rules.py works out by itself.

A node is written as its inputs, outputs and locals, its equations and its derived clocks. A flow is `t`
(truth) or `n` (number), with its clock where that is not 0: "t n2" is a truth on the base and a number on
clock 2. A derived clock is (parent, flow, side). An expression is

    3                            flow 3
    True, number(7)              constants
    ("not", e), ("plus", e, f), ("when", e, 3, True), ("merge", 3, e, f), ("if", e, f, g)
    [0, 1, "and", "not"]         cells as they stand, also where they are out of shape
"""

import sys

sys.dont_write_bytecode = True

import examine_rules

UNARY = ["not", "minus"]
BINARY = ["and", "or", "xor", "plus", "less", "times", "quotient", "below", "same"]
ON_TRUTHS = ["and", "or", "xor"]
ON_NUMBERS = ["plus", "less", "times", "quotient"]
COMPARING = ["below", "same"]

# the place of a fault in a node as a whole
NODE = 31


# Blocks as fields of bits (docs/FORMAT.md); a field is its width and its value


def cells_of(expression):
    """The cells of an expression in postfix order."""
    if isinstance(expression, list):
        return expression
    if not isinstance(expression, tuple) or expression[0] == "number":
        return [expression]
    if expression[0] == "when":
        return cells_of(expression[1]) + [("when", *expression[2:])]
    if expression[0] == "merge":
        return cells_of(expression[2]) + cells_of(expression[3]) + [("merge", expression[1])]
    return [cell for part in expression[1:] for cell in cells_of(part)] + [expression[0]]


def cell_fields(cell):
    if isinstance(cell, bool):
        return [(4, 1), (1, cell)]
    if isinstance(cell, int):
        return [(4, 0), (5, cell)]
    if cell[0] == "number":
        return [(4, 2), (32, cell[1] % 2**32)]
    if cell in UNARY:
        return [(4, 3), (1, UNARY.index(cell))]
    if cell in BINARY:
        return [(4, 4), (4, BINARY.index(cell))]
    if cell[0] == "when":
        return [(4, 5), (5, cell[1]), (1, cell[2])]
    if cell[0] == "merge":
        return [(4, 6), (5, cell[1])]
    assert cell == "if"
    return [(4, 7)]


def expression_fields(expression):
    cells = cells_of(expression)
    return [(5, len(cells) - 1)] + [field for cell in cells for field in cell_fields(cell)]


def plain(flow, expression, clock=0):
    return [(2, 0), (3, clock), (5, flow)] + expression_fields(expression)


def delay(flow, first, expression, clock=0):
    value = [(1, 0), (1, first)] if isinstance(first, bool) else [(1, 1), (32, first % 2**32)]
    return [(2, 1), (3, clock), (5, flow)] + value + expression_fields(expression)


def call(callee, results, arguments, clock=0):
    fields = [(2, 2), (3, clock), (3, callee), (3, len(results) - 1)] + [(5, flow) for flow in results]
    return fields + [(3, len(arguments) - 1)] + [f for argument in arguments for f in expression_fields(argument)]


def node(inputs, outputs, local_flows, equations, clocks=()):
    flows = [text.split() for text in (inputs, outputs, local_flows)]
    fields = [(3, len(flows[0]) - 1), (3, len(flows[1]) - 1), (4, len(flows[2])), (3, len(clocks))]
    for flow in flows[0] + flows[1] + flows[2]:
        fields += [(1, "tn".index(flow[0])), (3, int(flow[1:] or 0))]
    for parent, flow, side in clocks:
        fields += [(3, parent), (5, flow), (1, side)]
    return fields + [(5, len(equations))] + [field for equation in equations for field in equation]


def one(inputs, output, expression, clock=0, clocks=()):
    """A node with one output, no local and one plain equation."""
    return node(inputs, output, "", [plain(len(inputs.split()), expression, clock)], clocks)


def hex_of(fields):
    for width, value in fields:
        assert 0 <= value < 2**width, (width, value)
    bits = "".join(format(value, f"0{width}b") for width, value in fields)
    return "".join(format(int(bits[i:i + 8].ljust(8, "0"), 2), "02X") for i in range(0, len(bits), 8))


def block(*nodes):
    return [(8, 0xB7), (3, len(nodes) - 1)] + [field for fields in nodes for field in fields]


# Parts that many blocks have


def number(value):
    return ("number", value)


def on(expression, flow):
    return ("when", expression, flow, True)


def off(expression, flow):
    return ("when", expression, flow, False)


def leaning_right(operator, parts):
    return parts[0] if len(parts) == 1 else (operator, parts[0], leaning_right(operator, parts[1:]))


def leaning_left(operator, parts):
    return parts[0] if len(parts) == 1 else (operator, leaning_left(operator, parts[:-1]), parts[-1])


def nots(count):
    """So many cells: flow 0 and then not, again and again."""
    return [0] + ["not"] * (count - 1)


# derived clocks by flow 0: its one side, its other side, and both
ON = [(0, 0, True)]
OFF = [(0, 0, False)]
SIDES = [(0, 0, True), (0, 0, False)]
# the sides of flow 0 and, on one of them, those of flow 1
INNER_ON = SIDES + [(1, 1, True), (1, 1, False)]
INNER_OFF = SIDES + [(2, 1, True), (2, 1, False)]
# each clock by the flow of its parent's number
CHAIN = [(k, k, True) for k in range(7)]

# the output is the input
COPY = one("t", "t", 0)
COPY_NUMBER = one("n", "n", 0)


# Cases

CASES = []


def case(comment, digits, line):
    CASES.append((comment, digits, "examine " + line))


def done(comment, *nodes):
    case(comment, hex_of(block(*nodes)), "done")


def refused(check, at_node, at_equation, comment, *nodes):
    case(comment, hex_of(block(*nodes)), f"refused {check} examining {at_node} {at_equation}")


def unread(fault, bit, comment, digits):
    case(comment, digits, f"refused {fault} reading {bit} 0")


# Blocks that are done: expressions

done("the output is not the input", one("t", "t", ("not", 0)))
done("the output is minus the input", one("n", "n", ("minus", 0)))
for operator in ON_TRUTHS:
    done(f"{operator} of two truths", one("t t", "t", (operator, 0, 1)))
for operator in ON_NUMBERS:
    done(f"{operator} of two numbers", one("n n", "n", (operator, 0, 1)))
for operator in COMPARING:
    done(f"{operator} of two numbers, a truth", one("n n", "t", (operator, 0, 1)))
done("a truth is copied", COPY)
done("a number is copied", COPY_NUMBER)
done("constant true", one("t", "t", True))
done("constant false", one("t", "t", False))
done("constant 0", one("t", "n", number(0)))
done("the largest number", one("t", "n", number(2**31 - 1)))
done("the smallest number", one("t", "n", number(-(2**31))))
done("a flow compared with itself", one("n", "t", ("same", 0, 0)))
done(
    "operators of all three sorts in one expression",
    one("n n t", "t", ("and", ("not", 2), ("below", ("plus", 0, number(1)), ("minus", ("times", 0, 1))))),
)
done("an if with truths", one("t t", "t", ("if", 0, 1, ("not", 1))))
done("an if with numbers and an operation as its condition", one("n n", "n", ("if", ("below", 0, 1), 0, 1)))
done("an if with constants alone", one("t", "n", ("if", True, number(1), number(2))))
done("an if in the first branch of an if", one("t t", "t", ("if", 0, ("if", 1, 0, 1), 1)))
done("an if in the second branch of an if", one("t t", "t", ("if", 0, 1, ("if", 1, 0, 1))))
done("ifs in both branches of an if", one("t t", "t", ("if", 0, ("if", 1, 0, 1), ("if", 1, 1, 0))))
done("three ifs deep", one("t n", "n", ("if", 0, ("if", ("not", 0), ("if", 0, 1, number(1)), number(2)), number(3))))

# Blocks that are done: when and merge

done("when true", node("t n", "n", "n1", [plain(2, 1), plain(3, on(1, 0), 1)], ON))
done("when false", node("t n", "n", "n1", [plain(2, 1), plain(3, off(1, 0), 1)], OFF))
done("a flow kept where it is true itself", one("t", "t1", on(0, 0), 1, ON))
done("a truth constant kept where the input is false", one("t", "t1", off(True, 0), 1, OFF))
done("a number constant kept where the input is true", one("t", "n1", on(number(5), 0), 1, ON))
done("an operation under when", one("t n", "n1", on(("plus", 1, number(1)), 0), 1, ON))
done("when under an operation", one("t n", "n1", ("plus", on(1, 0), on(number(1), 0)), 1, ON))
done("an if on a derived clock", one("t n", "n1", ("if", on(0, 0), on(1, 0), on(number(0), 0)), 1, ON))
done("a merge of two flows", node("t n", "n", "n1 n2", [
    plain(2, ("merge", 0, 3, 4)), plain(3, on(1, 0), 1), plain(4, off(1, 0), 2),
], SIDES))
done("a merge of whens, truths", one("t t", "t", ("merge", 0, on(1, 0), off(1, 0)), clocks=SIDES))
done("a merge of constants under when", one("t", "n", ("merge", 0, on(number(1), 0), off(number(2), 0)), clocks=SIDES))
done("a merge where the false side is listed first", one("t n", "n", ("merge", 0, on(1, 0), off(1, 0)), clocks=SIDES[::-1]))
# inputs: 0 a truth, 1 a truth on one of its sides, 2 a number; clocks 3 and 4 are the sides of flow 1
done(
    "a merge in the first branch of a merge",
    one("t t1 n", "n", ("merge", 0, ("merge", 1, on(on(2, 0), 1), off(on(2, 0), 1)), off(2, 0)), clocks=INNER_ON),
)
done(
    "a merge in the second branch of a merge",
    one("t t2 n", "n", ("merge", 0, on(2, 0), ("merge", 1, on(off(2, 0), 1), off(off(2, 0), 1))), clocks=INNER_OFF),
)
done(
    "merges in both branches of a merge",
    one(
        "t t1 t2 n", "n",
        ("merge", 0, ("merge", 1, on(on(3, 0), 1), off(on(3, 0), 1)), ("merge", 2, on(off(3, 0), 2), off(off(3, 0), 2))),
        clocks=INNER_ON + [(2, 2, True), (2, 2, False)],
    ),
)
done("an if in a branch of a merge", one("t n", "n", ("merge", 0, ("if", on(0, 0), on(1, 0), on(number(0), 0)), off(1, 0)), clocks=SIDES))
done(
    "a merge in each branch of an if",
    one("t n", "n", ("if", 0, ("merge", 0, on(1, 0), off(1, 0)), ("merge", 0, on(number(1), 0), off(1, 0))), clocks=SIDES),
)
done("a merge by a local that is a delay", node("n", "n", "t", [
    plain(1, ("merge", 2, on(0, 2), off(number(0), 2))), delay(2, False, ("below", 0, number(0))),
], [(0, 2, True), (0, 2, False)]))
done("a derived clock by an output", node("n", "t n1", "", [plain(1, ("below", 0, number(3))), plain(2, on(0, 1), 1)], [(0, 1, True)]))
done("a derived clock that nothing is on", one("t", "t", 0, clocks=ON))
done("two clocks of one parent by two flows", node("t t", "t1 t2", "", [
    plain(2, on(1, 0), 1), plain(3, on(0, 1), 2),
], [(0, 0, True), (0, 1, True)]))
done("one side of a flow on the base and of another on a derived clock", node("t t1", "t2 t1", "", [
    plain(2, off(1, 1), 2), plain(3, ("not", 1), 1),
], [(0, 0, True), (1, 1, False)]))

# Blocks that are done: inputs and outputs of the main node on derived clocks

for deep in range(1, 8):
    # all inputs but the last are truths, each on the clock by the one before it; the last is on the deepest clock
    done(
        f"an input and an output on a clock {deep} deep, all by inputs",
        node(" ".join(f"t{k}" for k in range(deep)) + f" n{deep}", f"n{deep}", "", [plain(deep + 1, deep, deep)], CHAIN[:deep]),
    )
done("clocks 7 deep by locals", node("t", "t", "t1 t2 t3 t4 t5 t6 t7", [
    plain(1, 0), plain(2, on(0, 0), 1), *[plain(k + 1, on(k, k), k) for k in range(2, 8)],
], ON + [(k - 1, k, True) for k in range(2, 8)]))
done("a constant under 7 whens", one("t t1 t2 t3 t4 t5 t6", "n7", on(on(on(on(on(on(on(number(1), 0), 1), 2), 3), 4), 5), 6), 7, CHAIN))
done("an input on the false side of an input", one("t n1", "n1", 1, 1, OFF))
done("an earlier input on a clock by a later input", one("n1 t", "n1", 0, 1, [(0, 1, True)]))
done("an input on a derived clock in the last of two nodes", COPY, one("t n1", "n1", 1, 1, ON))
done("an output on a clock by a local", node("n", "n1", "t", [plain(1, on(0, 2), 1), plain(2, ("same", 0, number(0)))], [(0, 2, True)]))

# Blocks that are done: delays

for first in (False, True):
    done(f"a delay of a truth, first {first}", node("t", "t", "", [delay(1, first, 0)]))
for first in (0, -1, 2**31 - 1, -(2**31)):
    done(f"a delay of a number, first {first}", node("n", "n", "", [delay(1, first, 0)]))
done("a delay of a constant", node("t", "t", "", [delay(1, True, False)]))
done("a delay of an operation", node("n", "n", "", [delay(1, 0, ("plus", 0, number(1)))]))
done("a delay of itself", node("n", "n", "", [delay(1, 0, 1)]))
done("a delay of itself plus one", node("n", "n", "", [delay(1, 0, ("plus", 1, number(1)))]))
done("two delays of each other", node("n", "n", "n", [delay(1, 0, 2), delay(2, 1, 1)]))
done("a delay on a derived clock", node("t n", "n1", "", [delay(2, 0, on(1, 0), 1)], ON))
done("a delay of itself on a derived clock", node("t n", "n1", "", [delay(2, 0, ("plus", 2, on(1, 0)), 1)], ON))
done("a counter that restarts at its first input", node("n n t", "n", "t n", [
    plain(3, ("if", ("or", 4, 2), 0, ("plus", 5, 1))), delay(4, True, False), delay(5, 0, 3),
]))
done("a sum of what came so far", node("n", "n", "n", [plain(1, ("plus", 2, 0)), delay(2, 0, 1)]))

# Blocks that are done: calls

# takes 4 truths and 4 numbers, and gives the numbers and then the truths
WIDE = node("t t t t n n n n", "n n n n t t t t", "", [plain(8 + i, (4 + i) % 8) for i in range(8)])
done("a call with one argument and one result", COPY, node("t", "t", "", [call(0, [1], [0])]))
done("a call with 8 arguments and 8 results of both kinds", WIDE, node("t t t t n n n n", "n n n n t t t t", "", [
    call(0, [8, 9, 10, 11, 12, 13, 14, 15], [0, 1, 2, 3, 4, 5, 6, 7]),
]))
done("a call with 8 arguments and one result", one("t t t t t t t t", "t", 7), node("t", "t", "", [
    call(0, [1], [0, True, ("not", 0), 0, ("and", 0, 0), False, 0, 0]),
]))
done(
    "a call with one argument and 8 results",
    node("n", "n n n n n n n n", "", [plain(1 + i, 0) for i in range(8)]),
    node("n", "n n n n n n n n", "", [call(0, [8, 7, 6, 5, 4, 3, 2, 1], [("plus", 0, number(1))])]),
)
done("8 nodes, each calls the one before it", COPY, *[node("t", "t", "", [call(k, [1], [0])]) for k in range(7)])
done(
    "8 nodes, each calls all before it",
    COPY,
    *[node("t", "t", "t " * k, [plain(1, 0), *[call(m, [2 + m], [1 + m]) for m in range(k)]]) for k in range(1, 8)],
)
done("the last of 8 nodes calls the first", *[COPY] * 7, node("t", "t", "", [call(0, [1], [0])]))
done("one node called twice, the second time with the result of the first", COPY, node("t", "t", "t", [
    call(0, [1], [2]), call(0, [2], [0]),
]))
done("results into an output and a local", node("n", "n t", "", [plain(1, 0), plain(2, ("below", 0, number(0)))]), node("n", "n", "t", [
    call(0, [1, 2], [0]),
]))
done("a call on a derived clock", COPY_NUMBER, node("t n", "n1", "", [call(0, [2], [on(1, 0)], 1)], ON))
done("a call on a clock 7 deep", COPY_NUMBER, node("t t1 t2 t3 t4 t5 t6 n7", "n7", "", [call(0, [8], [7], 7)], CHAIN))
done("a call on a derived clock with a constant under when", COPY_NUMBER, node("t", "n1", "", [
    call(0, [1], [off(number(3), 0)], 1),
], OFF))
done("a callee with a delay", node("n", "n", "", [delay(1, 0, 0)]), node("n", "n", "", [call(0, [1], [0])]))
done(
    "a callee with locals on derived clocks",
    node("t n", "n", "n1 n2", [plain(2, ("merge", 0, 3, 4)), plain(3, on(1, 0), 1), plain(4, off(1, 0), 2)], SIDES),
    node("t n", "n", "", [call(0, [2], [0, 1])]),
)
done("calls on both sides of a flow, merged", COPY_NUMBER, node("t n", "n", "n1 n2", [
    plain(2, ("merge", 0, 3, 4)), call(0, [3], [on(1, 0)], 1), call(0, [4], [off(1, 0)], 2),
], SIDES))
done("a delay around a call", COPY_NUMBER, node("n", "n", "n", [call(0, [1], [("plus", 2, 0)]), delay(2, 0, 1)]))
done("nodes that nothing calls", COPY, COPY_NUMBER, one("n", "t", ("same", 0, 0)))

# Blocks that are done: sizes at their bounds

FULL = [plain(8 + i, i % 8) for i in range(23)]
done("31 flows and 23 equations", node("t " * 8, "t " * 8, "t " * 15, FULL))
done("31 flows in the reverse order of equations", node("t " * 8, "t " * 8, "t " * 15, FULL[::-1]))
done("23 equations, each of the flow of the next", node("t", "t " * 8, "t " * 15, [
    *[plain(1 + i, 2 + i) for i in range(22)], plain(23, 0),
]))
done("23 delays, each of the flow of the next, the last of the first", node("n", "n " * 8, "n " * 15, [
    *[delay(1 + i, i, 2 + i) for i in range(22)], delay(23, 22, 1),
]))
done("23 calls", COPY, node("t", "t " * 8, "t " * 15, [call(0, [1 + i], [i]) for i in range(23)]))
done("32 cells", one("t", "t", nots(32)))
done("32 cells in a delay", node("t", "t", "", [delay(1, True, nots(32))]))
done("32 cells in each of 8 arguments", node("t " * 8, "t", "", [plain(8, 0)]), node("t", "t", "", [call(0, [1], [nots(32)] * 8)]))
# fields before the equations: 11 + 13 + 24 * 4 + 5 = 125 bits. An equation of 16 numbers, 15 sums and a
# minus has 15 + 16 * 36 + 15 * 8 + 5 = 716 bits, one of 11 numbers, 10 sums and 2 minuses
# 15 + 11 * 36 + 10 * 8 + 2 * 5 = 501: 125 + 22 * 716 + 501 = 16,378 bits, which is 2,048 bytes
LONG = [plain(1 + i, ("minus", leaning_left("plus", [number(i)] * 16))) for i in range(22)]
LAST = leaning_left("plus", [number(9)] * 11)
done("2,048 bytes", node("n", "n " * 8, "n " * 15, [*LONG, plain(23, ("minus", ("minus", LAST)))]))

# 8 values wait at most: done with 8, refused with 9


def refused_in_shape(comment, *nodes):
    refused(7, 0, 0, comment, *nodes)


for waiting, answer in ((8, done), (9, refused_in_shape)):
    answer(f"{waiting} truths wait", one("t", "t", leaning_right("and", [0] * waiting)))
    answer(f"{waiting} numbers wait", one("n", "n", leaning_right("plus", [0] * waiting)))
    answer(f"{waiting} constants wait", one("n", "n", leaning_right("times", [number(2)] * waiting)))
    answer(f"{waiting} values wait after an operation on each", one("t", "t", leaning_right("or", [("not", 0)] * waiting)))
    answer(
        f"{waiting} values wait in the second part after a long first part",
        one("t", "t", ("xor", leaning_left("and", [0] * 8), leaning_right("and", [0] * (waiting - 1)))),
    )
    answer(f"{waiting} values wait in the first part", one("t", "t", ("xor", leaning_right("and", [0] * waiting), 0)))
    answer(f"{waiting} values wait in a delay", node("t", "t", "", [delay(1, True, leaning_right("and", [0] * waiting))]))
    answer(f"{waiting} values wait under when", one("t", "t1", on(leaning_right("and", [0] * waiting), 0), 1, ON))
    answer(f"{waiting} values wait in the condition of an if", one("t", "t", ("if", leaning_right("and", [0] * waiting), 0, 0)))
    answer(
        f"{waiting} values wait, the condition and the first branch of an if",
        one("t", "t", ("if", 0, leaning_right("and", [0] * (waiting - 1)), 0)),
    )
    answer(
        f"{waiting} values wait, an if up to its second branch",
        one("t", "t", ("if", 0, 0, leaning_right("and", [0] * (waiting - 2)))),
    )
    answer(
        f"{waiting} values wait in the first branch of a merge",
        one("t", "t", ("merge", 0, leaning_right("and", [on(0, 0)] * waiting), off(0, 0)), clocks=SIDES),
    )
    answer(
        f"{waiting} values wait, a merge up to its second branch",
        one("t", "t", ("merge", 0, on(0, 0), leaning_right("and", [off(0, 0)] * (waiting - 1))), clocks=SIDES),
    )
    answer(
        f"{waiting} values wait, ifs in the second branches of ifs",
        one("t", "t", ("if", 0, 0, ("if", 0, 0, ("if", 0, 0, leaning_right("and", [0] * (waiting - 6)))))),
    )
    answer(
        f"{waiting} values wait, an if in the second branch of a merge",
        one("t", "t", ("merge", 0, on(0, 0), ("if", off(0, 0), off(0, 0), leaning_right("or", [off(0, 0)] * (waiting - 3)))), clocks=SIDES),
    )

IF = ("if", 0, 0, 0)
for _ in range(5):
    IF = ("if", 0, IF, 0)
done("6 ifs, one in the first branch of the other: 8 wait", one("t", "t", IF))
refused(7, 0, 0, "7 ifs, one in the first branch of the other: 9 wait", one("t", "t", ("if", 0, IF, 0)))
done("16 flows in a sum that leans left: 2 wait", one("n", "n", leaning_left("plus", [0] * 16)))
done("8 values wait in the last argument", one("t t", "t", 0), node("t", "t", "", [call(0, [1], [0, leaning_right("and", [0] * 8)])]))
refused(7, 1, 0, "9 values wait in the last argument", one("t t", "t", 0), node("t", "t", "", [
    call(0, [1], [0, leaning_right("and", [0] * 9)]),
]))
refused(7, 0, 0, "9 values wait and are left", one("t", "t", [0] * 9))
refused(7, 0, 0, "32 flows", one("t", "t", [0] * 32))
refused(7, 0, 0, "9 values wait in the middle, 2 before and after", one("t", "t", [0, 0, "and"] + [0] * 8 + ["and"] * 8))
done("8 values wait in the middle, 2 before and after", one("t", "t", [0, 0, "and"] + [0] * 7 + ["and"] * 7 + [0, "or"]))

# 6: flows and derived clocks that do not fit

refused(6, 0, NODE, "an input on clock 1, and no derived clock", one("t1", "t", 0))
refused(6, 0, NODE, "an output on clock 7, and no derived clock", one("t", "t7", 0))
refused(6, 0, NODE, "a local on clock 2, and one derived clock", node("t", "t", "t2", [plain(1, 0), plain(2, 0)], ON))
refused(
    6, 0, NODE, "the last of 31 flows on clock 7, and six derived clocks",
    node("t " * 8, "t " * 8, "t " * 14 + "t7", FULL, [(0, k, True) for k in range(6)]),
)
refused(6, 0, NODE, "a derived clock that is its own parent", one("t", "t", 0, clocks=[(1, 0, True)]))
refused(6, 0, NODE, "a parent that is the next clock", one("t", "t", 0, clocks=[(2, 0, True), (0, 0, False)]))
refused(6, 0, NODE, "a parent that is not there", one("t", "t", 0, clocks=[(7, 0, True)]))
refused(6, 0, NODE, "the second of two clocks is its own parent", one("t", "t", 0, clocks=[(0, 0, True), (2, 0, True)]))
refused(6, 0, NODE, "the second of two clocks has a third as parent", one("t", "t", 0, clocks=[(0, 0, True), (3, 0, True)]))
refused(6, 0, NODE, "two clocks, each the parent of the other", one("t", "t", 0, clocks=[(2, 0, True), (1, 0, False)]))
refused(6, 0, NODE, "the last of seven clocks is its own parent", one("t t1 t2 t3 t4 t5 t6", "t", 0, clocks=CHAIN[:6] + [(7, 6, True)]))
refused(6, 0, NODE, "a derived clock by the flow after the last", one("t", "t", 0, clocks=[(0, 2, True)]))
refused(6, 0, NODE, "a derived clock by flow 31", one("t", "t", 0, clocks=[(0, 31, False)]))
refused(
    6, 0, NODE, "the last of seven clocks by a flow that is not there",
    one("t t1 t2 t3 t4 t5 t6", "t", 0, clocks=CHAIN[:6] + [(6, 8, True)]),
)
refused(6, 0, NODE, "flow 31 of a node with 31 flows", node("t " * 8, "t " * 8, "t " * 15, FULL, [(0, 31, True)]))

# 6: equations that do not fit

refused(6, 0, 0, "a plain equation on clock 1, and no derived clock", one("t", "t", 0, 1))
refused(6, 0, 0, "a delay on clock 7, and no derived clock", node("t", "t", "", [delay(1, True, 0, 7)]))
refused(6, 1, 0, "a call on clock 1, and no derived clock", COPY, node("t", "t", "", [call(0, [1], [0], 1)]))
refused(6, 0, 1, "the second equation on clock 3, and two derived clocks", node("t", "t", "t", [plain(1, 0), plain(2, 0, 3)], SIDES))
refused(6, 0, 0, "a plain equation of the flow after the last", node("t", "t", "", [plain(2, 0)]))
refused(6, 0, 0, "a plain equation of flow 31", node("t", "t", "", [plain(31, 0)]))
refused(6, 0, 1, "a delay of the flow after the last", node("t", "t", "", [plain(1, 0), delay(2, True, 0)]))
refused(6, 0, 22, "the last of 23 equations is of flow 31", node("t " * 8, "t " * 8, "t " * 15, FULL[:22] + [plain(31, 0)]))
refused(6, 0, 22, "the last of 23 equations names flow 31", node("t " * 8, "t " * 8, "t " * 15, FULL[:22] + [plain(30, 31)]))
for flow in (2, 31):
    refused(6, 0, 0, f"flow {flow} of two, alone", one("t", "t", flow))
    refused(6, 0, 0, f"flow {flow} of two as first part", one("t", "t", ("and", flow, 0)))
    refused(6, 0, 0, f"flow {flow} of two as last part", one("t", "t", ("and", ("not", 0), flow)))
    refused(6, 0, 0, f"when by flow {flow} of two", one("t", "t", on(0, flow)))
    refused(6, 0, 0, f"merge by flow {flow} of two", one("t", "t", ("merge", flow, 0, 0)))
    refused(6, 0, 0, f"flow {flow} of two in a delay", node("t", "t", "", [delay(1, True, flow)]))
    refused(6, 0, 0, f"when by flow {flow} of two in a delay", node("t", "t", "", [delay(1, True, off(0, flow))]))
    refused(6, 1, 0, f"when by flow {flow} of two in an argument", COPY, node("t", "t", "", [call(0, [1], [on(0, flow)])]))
refused(6, 0, 0, "the last of 32 cells names flow 2 of two", one("t", "t", [0] + ["not"] * 30 + [("merge", 2)]))
refused(6, 0, 0, "a flow that is not there in a branch of an if", one("t", "t", ("if", 0, 0, 9)))
refused(6, 0, 0, "a flow that is not there in the condition of an if", one("t", "t", ("if", 9, 0, 0)))
EIGHT = list(range(8, 16))
for i in range(8):
    results = EIGHT[:i] + [16] + EIGHT[i + 1:]
    refused(6, 1, 0, f"result {i} of eight is a flow that is not there", WIDE, node("t t t t n n n n", "n n n n t t t t", "", [
        call(0, results, list(range(8))),
    ]))
    arguments = [*range(i), ("plus", 4, 31), *range(i + 1, 8)]
    refused(6, 1, 0, f"argument {i} of eight names a flow that is not there", WIDE, node("t t t t n n n n", "n n n n t t t t", "", [
        call(0, EIGHT, arguments),
    ]))
refused(6, 0, 0, "the only node calls itself", node("t", "t", "", [call(0, [1], [0])]))
refused(6, 1, 0, "the main node calls itself", COPY, node("t", "t", "", [call(1, [1], [0])]))
refused(6, 0, 0, "the first of two nodes calls itself", node("t", "t", "", [call(0, [1], [0])]), COPY)
refused(6, 0, 0, "the first node calls the second", node("t", "t", "", [call(1, [1], [0])]), COPY)
refused(6, 1, 0, "a node calls the one after it", COPY, node("t", "t", "", [call(2, [1], [0])]), COPY)
refused(6, 1, 0, "a callee that is not there", COPY, node("t", "t", "", [call(2, [1], [0])]))
refused(6, 1, 0, "callee 7 of two nodes", COPY, node("t", "t", "", [call(7, [1], [0])]))
refused(6, 7, 0, "the last of 8 nodes calls itself", *[COPY] * 7, node("t", "t", "", [call(7, [1], [0])]))
refused(6, 0, 0, "two nodes that call each other", node("t", "t", "", [call(1, [1], [0])]), node("t", "t", "", [call(0, [1], [0])]))
TWO_TWO = node("t t", "t t", "", [plain(2, 0), plain(3, 1)])
refused(6, 1, 0, "one argument too many", TWO_TWO, node("t", "t t t", "", [call(0, [1, 2], [0, 0, 0]), plain(3, 0)]))
refused(6, 1, 0, "one argument too few", TWO_TWO, node("t", "t t t", "", [call(0, [1, 2], [0]), plain(3, 0)]))
refused(6, 1, 0, "one result too many", TWO_TWO, node("t", "t t t", "", [call(0, [1, 2, 3], [0, 0])]))
refused(6, 1, 0, "one result too few", TWO_TWO, node("t", "t t t", "", [call(0, [1], [0, 0]), plain(2, 0), plain(3, 0)]))
refused(6, 1, 0, "a result too many for an argument too few", TWO_TWO, node("t", "t t t", "", [call(0, [1, 2, 3], [0])]))
refused(6, 1, 0, "8 arguments for one input", COPY, node("t", "t", "", [call(0, [1], [0] * 8)]))
refused(6, 1, 0, "8 results for one output", COPY, node("t", "t " * 8, "", [call(0, list(range(1, 9)), [0])]))
refused(6, 1, 0, "7 arguments for 8 inputs", WIDE, node("t t t t n n n n", "n n n n t t t t", "", [call(0, EIGHT, list(range(7)))]))
refused(6, 1, 0, "7 results for 8 outputs", WIDE, node("t t t t n n n n", "n n n n t t t t", "", [
    call(0, EIGHT[:7], list(range(8))), plain(15, 3),
]))

# 7: cells that list nothing, in a plain equation, in a delay and in an argument

OUT_OF_SHAPE = {
    "not of nothing": ["not"],
    "minus of nothing": ["minus"],
    "when of nothing": [("when", 0, True)],
    "an operator of two parts with none": ["and"],
    "an operator of two parts with one": [0, "and"],
    "merge of nothing": [("merge", 0)],
    "merge of one branch": [0, ("merge", 0)],
    "if of nothing": ["if"],
    "if of one part": [0, "if"],
    "if of two parts": [0, 0, "if"],
    "two values left": [0, 0],
    "two constants left": [True, False],
    "two values left after an operation": [0, 0, 0, "and"],
    "three values left": [0, 0, 0],
    "an operator too many": [0, 0, "and", "and"],
    "an operator before its part": ["not", 0],
    "an operator between its parts": [0, "and", 0],
    "a merge of two parts, one of which is left": [0, 0, 0, ("merge", 0)],
    "an if with a fourth part left": [0, 0, 0, 0, "if"],
}
for what, cells in OUT_OF_SHAPE.items():
    refused(7, 0, 0, what, one("t", "t", cells))
    refused(7, 0, 1, what + ", in a delay", node("t", "t", "t", [plain(1, 0), delay(2, False, cells)]))
    refused(7, 1, 0, what + ", in an argument", COPY, node("t", "t", "", [call(0, [1], [cells])]))

# 7: merge and if elsewhere than at the top or as a branch

for what, control in {"merge": ("merge", 0, on(0, 0), off(0, 0)), "if": ("if", 0, 0, 0)}.items():
    for where, expression in {
        "under not": ("not", control),
        "under minus": ("minus", control),
        "as first part of an operation": ("and", control, 0),
        "as second part of an operation": ("and", 0, control),
        "as second part of a comparison": ("below", number(1), control),
        "under when": on(control, 0),
        "as the condition of an if": ("if", control, 0, 0),
        "under not in the condition of an if": ("if", ("not", control), 0, 0),
        "under not in the first branch of an if": ("if", 0, ("not", control), 0),
        "under an operation in the second branch of an if": ("if", 0, 0, ("or", 0, control)),
        "under not in the first branch of a merge": ("merge", 0, ("not", control), 0),
        "under when in the second branch of a merge": ("merge", 0, 0, off(control, 0)),
    }.items():
        refused(7, 0, 0, f"{what} {where}", one("t", "t", expression, clocks=SIDES))
    refused(7, 0, 0, f"{what} in a delay", node("t", "t", "", [delay(1, True, control)], SIDES))
    refused(7, 0, 0, f"{what} under not in a delay", node("t", "t", "", [delay(1, True, ("not", control))], SIDES))
    refused(7, 1, 0, f"{what} as the only argument", COPY, node("t", "t", "", [call(0, [1], [control])], SIDES))
    refused(7, 1, 0, f"{what} under when as an argument", COPY, node("t", "t1", "", [call(0, [1], [on(control, 0)], 1)], SIDES))
    for i in range(0, 8, 7):
        arguments = [*range(i), control, *range(i + 1, 8)]
        refused(7, 1, 0, f"{what} as argument {i} of eight", WIDE, node("t t t t n n n n", "n n n n t t t t", "", [
            call(0, EIGHT, arguments),
        ], SIDES))

# 8: operands of the wrong kind

refused(8, 0, 0, "not of a number", one("n", "t", ("not", 0)))
refused(8, 0, 0, "minus of a truth", one("t", "n", ("minus", 0)))
for operator in BINARY:
    # flow 0 has the right kind, flow 1 the wrong one
    inputs = "t n" if operator in ON_TRUTHS else "n t"
    output = "n" if operator in ON_NUMBERS else "t"
    refused(8, 0, 0, f"{operator} with its first part of the wrong kind", one(inputs, output, (operator, 1, 0)))
    refused(8, 0, 0, f"{operator} with its second part of the wrong kind", one(inputs, output, (operator, 0, 1)))
    refused(8, 0, 0, f"{operator} with both parts of the wrong kind", one(inputs, output, (operator, 1, 1)))
    wrong = "t" if output == "n" else "n"
    refused(8, 0, 0, f"{operator} into a flow of the wrong kind", one(inputs, wrong, (operator, 0, 0)))
refused(8, 0, 0, "not into a number", one("t", "n", ("not", 0)))
refused(8, 0, 0, "minus into a truth", one("n", "t", ("minus", 0)))
refused(8, 0, 0, "a truth flow into a number", one("t", "n", 0))
refused(8, 0, 0, "a number flow into a truth", one("n", "t", 0))
refused(8, 0, 0, "a truth constant into a number", one("n", "n", True))
refused(8, 0, 0, "a number constant into a truth", one("t", "t", number(1)))
refused(8, 0, 0, "a wrong kind deep inside", one("n n t", "t", ("and", 2, ("below", 0, ("plus", ("minus", ("times", 0, 2)), 1)))))
refused(8, 0, 0, "a comparison as part of a sum", one("n n", "n", ("plus", ("below", 0, 1), 0)))
refused(8, 0, 0, "a comparison of comparisons", one("n n", "t", ("same", ("below", 0, 1), ("below", 1, 0))))

# 8: when, merge, if and derived clocks

refused(8, 0, 0, "when by a number", one("n t", "t", on(1, 0)))
refused(8, 0, 0, "when by a number, of a number", one("n n", "n", off(1, 0)))
refused(8, 0, 0, "when gives the kind of its part, not of its flow", one("t n", "t1", on(1, 0), 1, ON))
refused(8, 0, 0, "a wrong kind under when", one("t n", "t1", on(("not", 1), 0), 1, ON))
refused(8, 0, 0, "merge by a number", one("n t", "t", ("merge", 0, 1, 1)))
refused(8, 0, 0, "merge of a truth and a number, into a truth", one("t n", "t", ("merge", 0, on(0, 0), off(1, 0)), clocks=SIDES))
refused(8, 0, 0, "merge of a number and a truth, into a truth", one("t n", "t", ("merge", 0, on(1, 0), off(0, 0)), clocks=SIDES))
refused(8, 0, 0, "merge of a truth and a number, into a number", one("t n", "n", ("merge", 0, on(0, 0), off(1, 0)), clocks=SIDES))
refused(8, 0, 0, "merge of numbers into a truth", one("t n", "t", ("merge", 0, on(1, 0), off(1, 0)), clocks=SIDES))
refused(8, 0, 0, "merge of truths into a number", one("t n", "n", ("merge", 0, on(0, 0), off(0, 0)), clocks=SIDES))
refused(8, 0, 0, "if with a number as condition", one("t n", "n", ("if", 1, 1, 1)))
refused(8, 0, 0, "if with a number constant as condition", one("t", "t", ("if", number(1), 0, 0)))
refused(8, 0, 0, "if with a truth and a number, into a truth", one("t n", "t", ("if", 0, 0, 1)))
refused(8, 0, 0, "if with a number and a truth, into a truth", one("t n", "t", ("if", 0, 1, 0)))
refused(8, 0, 0, "if with a number and a truth, into a number", one("t n", "n", ("if", 0, 1, 0)))
refused(8, 0, 0, "if of numbers into a truth", one("t n", "t", ("if", 0, 1, 1)))
refused(8, 0, 0, "if of truths into a number", one("t n", "n", ("if", 0, 0, 0)))
refused(8, 0, 0, "an inner if of the wrong kind in the first branch", one("t n", "n", ("if", 0, ("if", 0, 0, 0), 1)))
refused(8, 0, 0, "an inner if of the wrong kind in the second branch", one("t n", "n", ("if", 0, 1, ("if", 0, 0, 0))))
refused(8, 0, 0, "an inner if with a number as condition", one("t n", "n", ("if", 0, 1, ("if", 1, 1, 1))))
refused(
    8, 0, 0, "an inner merge by a number",
    one("t n1 n", "n", ("merge", 0, ("merge", 1, on(2, 0), on(2, 0)), off(2, 0)), clocks=SIDES),
)
refused(8, 0, NODE, "a derived clock by a number input", one("n", "n", 0, clocks=ON))
refused(8, 0, NODE, "a derived clock by a number output", one("n", "n", 0, clocks=[(0, 1, False)]))
refused(8, 0, NODE, "the second of two derived clocks by a number local", node("t", "t", "n", [
    plain(1, 0), plain(2, number(1)),
], [(0, 0, True), (0, 2, True)]))
refused(8, 0, NODE, "the last of seven derived clocks by a number", one("t t1 t2 t3 t4 t5 n6", "t", 0, clocks=CHAIN))

# 8: first values, arguments and results

refused(8, 0, 0, "a truth as first value of a number", node("n", "n", "", [delay(1, True, 0)]))
refused(8, 0, 0, "a number as first value of a truth", node("t", "t", "", [delay(1, 0, 0)]))
refused(8, 0, 0, "a delay of a truth into a number", node("t", "n", "", [delay(1, 0, 0)]))
refused(8, 0, 0, "a delay of a number into a truth", node("n", "t", "", [delay(1, False, 0)]))
refused(8, 0, 0, "first value and expression are truths, the flow a number", node("t", "n", "", [delay(1, False, 0)]))
refused(8, 0, 0, "first value and expression are numbers, the flow a truth", node("n", "t", "", [delay(1, 0, 0)]))
refused(8, 0, 0, "a wrong kind inside a delay", node("n", "n", "", [delay(1, 0, ("plus", 0, ("not", 0)))]))
# node 1 has a truth and a number as inputs, and a result of each kind that node 0 gives
for i in range(8):
    arguments = [0, 0, 0, 0, 1, 1, 1, 1]
    arguments[i] = 1 - arguments[i]
    refused(8, 1, 0, f"argument {i} of eight of the wrong kind", WIDE, node("t n", "n n n n t t t t", "", [
        call(0, list(range(2, 10)), arguments),
    ]))
    kinds = ["n", "n", "n", "n", "t", "t", "t", "t"]
    kinds[i] = "t" if kinds[i] == "n" else "n"
    refused(8, 1, 0, f"result {i} of eight of the wrong kind", WIDE, node("t n", " ".join(kinds), "", [
        call(0, list(range(2, 10)), [0, 0, 0, 0, 1, 1, 1, 1]),
    ]))
refused(8, 1, 0, "the only argument of the wrong kind", COPY, node("n", "t", "", [call(0, [1], [0])]))
refused(8, 1, 0, "the only result of the wrong kind", COPY, node("t", "n", "", [call(0, [1], [0])]))
refused(8, 1, 0, "a number constant as argument for a truth", COPY, node("t", "t", "", [call(0, [1], [number(0)])]))
refused(8, 1, 0, "an argument with no kind", COPY, node("t", "t", "", [call(0, [1], [("not", number(0))])]))
refused(8, 1, 0, "two arguments exchanged", one("t n", "t", 0), node("t n", "t", "", [call(0, [2], [1, 0])]))
refused(8, 1, 0, "two results exchanged", node("t", "t n", "", [plain(1, 0), plain(2, number(1))]), node("t", "t n", "", [
    call(0, [2, 1], [0]),
]))
refused(8, 2, 0, "the kinds of another node than the callee", COPY, COPY_NUMBER, node("t", "t", "", [call(1, [1], [0])]))

# 9: expressions whose parts are on different clocks. Flow 0 is a truth, 1 a number, both on the base

refused(9, 0, 0, "a truth constant on a derived clock", one("t", "t1", True, 1, ON))
refused(9, 0, 0, "a number constant on a derived clock", one("t", "n1", number(1), 1, ON))
refused(9, 0, 0, "a constant in a delay on a derived clock", node("t", "n1", "", [delay(1, 0, number(1), 1)], ON))
refused(9, 1, 0, "a constant as argument of a call on a derived clock", COPY_NUMBER, node("t", "n1", "", [
    call(0, [1], [number(1)], 1),
], ON))
refused(9, 0, 0, "a constant added on a derived clock", one("t n", "n1", ("plus", on(1, 0), number(1)), 1, ON))
refused(9, 0, 0, "a constant before the operand on a derived clock", one("t n", "n1", ("plus", number(1), on(1, 0)), 1, ON))
for operator in BINARY:
    part = 0 if operator in ON_TRUTHS else 1
    output = "n" if operator in ON_NUMBERS else "t"
    refused(9, 0, 0, f"{operator} over the base and a derived clock", one("t n", output, (operator, part, on(part, 0)), clocks=ON))
refused(9, 0, 0, "an operation over a derived clock and the base", one("t n", "n1", ("plus", on(1, 0), 1), 1, ON))
refused(9, 0, 0, "an operation over two derived clocks", one("t n", "n1", ("plus", on(1, 0), off(1, 0)), 1, SIDES))
refused(
    9, 0, 0, "an operation over a derived clock and its parent clock",
    one("t t1 n", "n2", ("plus", on(on(2, 0), 1), on(2, 0)), 2, CHAIN[:2]),
)
refused(9, 0, 0, "an if with its condition on another clock", one("t n", "n1", ("if", 0, on(1, 0), on(1, 0)), 1, ON))
refused(9, 0, 0, "an if with its first branch on another clock", one("t n", "n1", ("if", on(0, 0), 1, on(1, 0)), 1, ON))
refused(9, 0, 0, "an if with its second branch on another clock", one("t n", "n1", ("if", on(0, 0), on(1, 0), 1), 1, ON))
refused(9, 0, 0, "an if with both branches on a derived clock, into the base", one("t n", "n", ("if", 0, on(1, 0), on(1, 0)), clocks=ON))
refused(9, 0, 0, "minus keeps the clock of its part", one("t n", "n", ("minus", on(1, 0)), clocks=ON))
refused(
    9, 0, 0, "two clocks deep inside an expression",
    one("t n", "n", ("plus", 1, ("minus", ("times", number(2), ("less", 1, on(1, 0))))), clocks=ON),
)

# 9: when

refused(9, 0, 0, "when of a part that is on the derived clock already", one("t n", "n1", on(on(1, 0), 0), 1, ON))
refused(9, 0, 0, "when of a part on the other side", one("t n", "n1", on(off(1, 0), 0), 1, SIDES))
refused(9, 0, 0, "when of a part on the base, its flow on a derived clock", one("t t1 n", "n2", on(2, 1), 2, CHAIN[:2]))
refused(9, 0, 0, "when of a constant by a flow on a derived clock", one("t t1", "n2", on(number(1), 1), 2, CHAIN[:2]))
refused(9, 0, 0, "two whens in the wrong order", one("t t1 n", "n2", on(on(2, 1), 0), 2, CHAIN[:2]))
refused(9, 0, 0, "when with no derived clock listed", one("t n", "n", on(1, 0)))
refused(9, 0, 0, "when true with the false side alone listed", one("t n", "n1", on(1, 0), 1, OFF))
refused(9, 0, 0, "when false with the true side alone listed", one("t n", "n1", off(1, 0), 1, ON))
refused(9, 0, 0, "when by a flow with the clock of another flow listed", one("t t", "t1", on(0, 1), 1, ON))
refused(9, 0, 0, "when by a flow of a derived clock, listed for the flow on the base alone", one("t t1", "t1", on(1, 1), 1, ON))
refused(9, 0, 0, "an unlisted when inside an operation", one("t n", "n", ("plus", 1, on(1, 0))))
refused(9, 0, 0, "an unlisted when in a delay", node("t n", "n", "", [delay(2, 0, on(1, 0))]))
refused(9, 1, 0, "an unlisted when in an argument", COPY_NUMBER, node("t n", "n", "", [call(0, [2], [on(1, 0)])]))

# 9: merge

refused(9, 0, 0, "merge with no derived clock listed", one("t n", "n", ("merge", 0, 1, 1)))
refused(9, 0, 0, "merge of whens with no derived clock listed", one("t n", "n", ("merge", 0, on(1, 0), off(1, 0))))
refused(9, 0, 0, "merge with the true side alone listed", one("t n", "n", ("merge", 0, on(1, 0), 1), clocks=ON))
refused(9, 0, 0, "merge with the false side alone listed", one("t n", "n", ("merge", 0, 1, off(1, 0)), clocks=OFF))
refused(9, 0, 0, "merge of the true side twice, the false side not listed", one("t n", "n", ("merge", 0, on(1, 0), on(1, 0)), clocks=ON))
refused(9, 0, 0, "merge with its branches exchanged", one("t n", "n", ("merge", 0, off(1, 0), on(1, 0)), clocks=SIDES))
refused(
    9, 0, 0, "merge with its branches exchanged, sides listed the other way",
    one("t n", "n", ("merge", 0, off(1, 0), on(1, 0)), clocks=SIDES[::-1]),
)
refused(9, 0, 0, "merge with both branches on the true side", one("t n", "n", ("merge", 0, on(1, 0), on(1, 0)), clocks=SIDES))
refused(9, 0, 0, "merge with both branches on the false side", one("t n", "n", ("merge", 0, off(1, 0), off(1, 0)), clocks=SIDES))
refused(9, 0, 0, "merge with both branches on the base", one("t n", "n", ("merge", 0, 1, 1), clocks=SIDES))
refused(9, 0, 0, "merge with its first branch on the base", one("t n", "n", ("merge", 0, 1, off(1, 0)), clocks=SIDES))
refused(9, 0, 0, "merge with its second branch on the base", one("t n", "n", ("merge", 0, on(1, 0), 1), clocks=SIDES))
refused(9, 0, 0, "merge with constants as branches", one("t", "n", ("merge", 0, number(1), number(2)), clocks=SIDES))
refused(9, 0, 0, "merge by one flow of the sides of another", one("t t n", "n", ("merge", 1, on(2, 0), off(2, 0)), clocks=SIDES))
refused(9, 0, 0, "merge into a derived clock by a flow on the base", one("t n", "n1", ("merge", 0, on(1, 0), off(1, 0)), 1, SIDES))
refused(
    9, 0, 0, "merge into the base by a flow on a derived clock",
    one("t t1 n", "n", ("merge", 1, on(on(2, 0), 1), off(on(2, 0), 1)), clocks=ON + [(1, 1, True), (1, 1, False)]),
)
refused(
    9, 0, 0, "an inner merge with its branches exchanged",
    one("t t1 n", "n", ("merge", 0, ("merge", 1, off(on(2, 0), 1), on(on(2, 0), 1)), off(2, 0)), clocks=INNER_ON),
)
refused(
    9, 0, 0, "an inner merge in the wrong branch",
    one("t t1 n", "n", ("merge", 0, on(2, 0), ("merge", 1, on(on(2, 0), 1), off(on(2, 0), 1))), clocks=INNER_ON),
)
refused(
    9, 0, 0, "an if over a merge and a derived clock",
    one("t n", "n", ("if", 0, ("merge", 0, on(1, 0), off(1, 0)), on(1, 0)), clocks=SIDES),
)

# 9: equations on another clock

for form, equation in {"a plain equation": plain, "a delay": lambda flow, e, clock=0: delay(flow, 0, e, clock)}.items():
    refused(9, 0, 0, f"{form} on the base, its flow on a derived clock", node("t n", "n1", "", [equation(2, 1)], ON))
    refused(9, 0, 0, f"{form} on the base, its expression on a derived clock", node("t n", "n", "", [equation(2, on(1, 0))], ON))
    refused(9, 0, 0, f"{form} on the base, its flow and expression on a derived clock", node("t n", "n1", "", [
        equation(2, on(1, 0)),
    ], ON))
    refused(9, 0, 0, f"{form} on a derived clock, its flow on the base", node("t n", "n", "", [equation(2, on(1, 0), 1)], ON))
    refused(9, 0, 0, f"{form} on a derived clock, its expression on the base", node("t n", "n1", "", [equation(2, 1, 1)], ON))
    refused(9, 0, 0, f"{form} on a derived clock, its flow and expression on the base", node("t n", "n", "", [equation(2, 1, 1)], ON))
    refused(9, 0, 0, f"{form} on one derived clock, its flow on another", node("t n", "n2", "", [equation(2, on(1, 0), 1)], SIDES))
    refused(9, 0, 0, f"{form} on one derived clock, its expression on another", node("t n", "n1", "", [equation(2, off(1, 0), 1)], SIDES))
    refused(9, 0, 0, f"{form} on the parent of the clock of its flow", node("t t1 n2", "n2", "", [equation(3, 2, 1)], CHAIN[:2]))
# node 0 takes three numbers and gives three
THREE = node("n n n", "n n n", "", [plain(3, 0), plain(4, 1), plain(5, 2)])
for i in range(3):
    arguments = [on(1, 0)] * 3
    arguments[i] = 1
    refused(9, 1, 0, f"argument {i} of three on the base, the call on a derived clock", THREE, node("t n", "n1 n1 n1", "", [
        call(0, [2, 3, 4], arguments, 1),
    ], ON))
    arguments = [1, 1, 1]
    arguments[i] = on(1, 0)
    refused(9, 1, 0, f"argument {i} of three on a derived clock, the call on the base", THREE, node("t n", "n n n", "", [
        call(0, [2, 3, 4], arguments),
    ], ON))
    outputs = ["n1", "n1", "n1"]
    outputs[i] = "n"
    refused(9, 1, 0, f"result {i} of three on the base, the call on a derived clock", THREE, node("t n", " ".join(outputs), "", [
        call(0, [2, 3, 4], [on(1, 0)] * 3, 1),
    ], ON))
    outputs = ["n", "n", "n"]
    outputs[i] = "n1"
    refused(9, 1, 0, f"result {i} of three on a derived clock, the call on the base", THREE, node("t n", " ".join(outputs), "", [
        call(0, [2, 3, 4], [1, 1, 1]),
    ], ON))
refused(9, 1, 0, "arguments and results on the base, the call on a derived clock", COPY_NUMBER, node("t n", "n", "", [
    call(0, [2], [1], 1),
], ON))
refused(9, 1, 0, "arguments and results on a derived clock, the call on the base", COPY_NUMBER, node("t n", "n1", "", [
    call(0, [2], [on(1, 0)]),
], ON))
refused(9, 1, 0, "argument and result on the two sides, the call on one", COPY_NUMBER, node("t n", "n1", "", [
    call(0, [2], [off(1, 0)], 1),
], SIDES))
refused(9, 1, 0, "an argument over two clocks", COPY_NUMBER, node("t n", "n", "", [call(0, [2], [("plus", 1, on(1, 0))])], ON))

# 9: flows and derived clocks of a node

refused(9, 0, NODE, "an input on a clock by an output", one("n1", "t", True, clocks=[(0, 1, True)]))
refused(9, 0, NODE, "an input on a clock by a local", node("n1", "t", "t", [plain(1, True), plain(2, True)], [(0, 2, False)]))
refused(9, 0, NODE, "the last of eight inputs on a clock by an output", one("t t t t t t t t1", "t", 0, clocks=[(0, 8, True)]))
refused(9, 0, NODE, "an input on a clock by an input whose clock is by a local", node("t1 n2", "t", "t", [
    plain(2, True), plain(3, True),
], [(0, 3, True), (1, 0, True)]))
refused(9, 0, NODE, "an input on a clock by a local whose clock is by an input", node("t n2", "t", "t1", [
    plain(2, 0), plain(3, on(0, 0), 1),
], [(0, 0, True), (1, 3, True)]))
refused(
    9, 0, NODE, "an input six clocks above a local",
    one("t1 t2 t3 t4 t5 t6 t7", "t", True, clocks=[(0, 7, True)] + [(k, k - 1, True) for k in range(1, 7)]),
)
refused(9, 0, NODE, "an input of a called node on a derived clock", one("t n1", "t", 0, clocks=ON), node("t n", "t", "", [
    call(0, [2], [0, 1]),
]))
refused(9, 0, NODE, "an output of a called node on a derived clock", one("t n", "n1", on(1, 0), 1, ON), node("t n", "n", "", [
    call(0, [2], [0, 1]),
]))
refused(9, 0, NODE, "the first input of a called node on a derived clock by the second", one("n1 t", "t", 1, clocks=[(0, 1, True)]), COPY)
refused(9, 0, NODE, "the first of two outputs on a derived clock, in a node that is not the main one", node("t", "t1 t", "", [
    plain(1, on(0, 0), 1), plain(2, 0),
], ON), COPY)
refused(9, 0, NODE, "an input on a derived clock in a node that nothing calls", one("t n1", "t", 0, clocks=ON), COPY)
refused(
    9, 1, NODE, "the last output on a derived clock in a node that is not the main one",
    COPY,
    node("t", "t t1", "", [plain(1, 0), plain(2, on(0, 0), 1)], ON),
    COPY,
)
done("the same node as main node: an input on a derived clock", COPY, one("t n1", "t", 0, clocks=ON))
done("the same node as main node: the last output on a derived clock", COPY, node("t", "t t1", "", [
    plain(1, 0), plain(2, on(0, 0), 1),
], ON))
done(
    "a local on a derived clock in a node that is not the main one",
    node("t", "t", "t1", [plain(1, 0), plain(2, on(0, 0), 1)], ON),
    COPY,
)
refused(9, 0, NODE, "a derived clock of clock 1 by a flow on the base", one("t t", "t", 0, clocks=[(0, 0, True), (1, 1, True)]))
refused(9, 0, NODE, "a derived clock of the base by a flow on clock 1", one("t t1", "t", 0, clocks=[(0, 0, True), (0, 1, True)]))
refused(9, 0, NODE, "a derived clock of clock 1 by the flow of clock 1", one("t", "t", 0, clocks=[(0, 0, True), (1, 0, True)]))
refused(9, 0, NODE, "a derived clock by a flow that is on it", one("t", "t1", on(0, 0), 1, [(0, 1, True)]))
refused(
    9, 0, NODE, "the last of seven derived clocks by a flow on another clock than its parent",
    one("t t1 t2 t3 t4 t5 t6", "t", 0, clocks=CHAIN[:6] + [(5, 6, True)]),
)
refused(9, 0, NODE, "two derived clocks alike", one("t", "t", 0, clocks=[(0, 0, True), (0, 0, True)]))
refused(9, 0, NODE, "two derived clocks alike, of side false", one("t", "t", 0, clocks=[(0, 0, False), (0, 0, False)]))
refused(
    9, 0, NODE, "the first and the last of seven derived clocks alike",
    one("t t t", "t", 0, clocks=[(0, 0, True), (0, 0, False), (0, 1, True), (0, 1, False), (0, 2, True), (0, 2, False), (0, 0, True)]),
)
refused(9, 0, NODE, "two derived clocks alike, of a derived clock", one("t t1", "t", 0, clocks=ON + [(1, 1, True), (1, 1, True)]))
refused(9, 0, NODE, "three derived clocks, the last two alike", one("t t", "t", 0, clocks=ON + [(0, 1, False), (0, 1, False)]))
done(
    "seven derived clocks, no two alike",
    one("t t t t", "t", 0, clocks=[(0, 0, True), (0, 0, False), (0, 1, True), (0, 1, False), (0, 2, True), (0, 2, False), (0, 3, True)]),
)
done(
    "derived clocks of different parents by different flows, all of side true",
    one("t t t1", "t", 0, clocks=[(0, 0, True), (0, 1, True), (1, 2, True)]),
)

# 10: flows that are not defined once

refused(10, 0, NODE, "an output that is not defined", node("t", "t t", "", [plain(1, 0)]))
refused(10, 0, NODE, "the first output is not defined", node("t", "t t", "", [plain(2, 0)]))
refused(10, 0, NODE, "a local that is not defined", node("t", "t", "t", [plain(1, 0)]))
refused(10, 0, NODE, "the last of 15 locals is not defined", node("t", "t", "t " * 15, [plain(1 + i, 0) for i in range(15)]))
refused(10, 0, NODE, "a local that is used and not defined", node("t", "t", "t", [plain(1, 2)]))
refused(10, 0, NODE, "a local on a derived clock that is not defined", node("t", "t", "t1", [plain(1, 0)], ON))
refused(10, 0, NODE, "an output twice, by plain equations", node("t", "t", "", [plain(1, 0), plain(1, 0)]))
refused(10, 0, NODE, "an output twice, by different plain equations far apart", node("t", "t t t", "", [
    plain(1, 0), plain(2, 0), plain(3, 0), plain(1, ("not", 0)),
]))
refused(10, 0, NODE, "an output twice, plain and delay", node("t", "t", "", [plain(1, 0), delay(1, True, 0)]))
refused(10, 0, NODE, "an output twice, delay and plain", node("t", "t", "", [delay(1, True, 0), plain(1, 0)]))
refused(10, 0, NODE, "a local twice, by delays", node("t", "t", "t", [plain(1, 0), delay(2, True, 0), delay(2, False, 0)]))
refused(10, 0, NODE, "an output three times", node("t", "t", "", [plain(1, 0), plain(1, 0), plain(1, 0)]))
refused(10, 0, NODE, "one output twice and another never", node("t", "t t", "", [plain(1, 0), plain(1, 0)]))
TWICE = node("t", "t t", "", [plain(1, 0), plain(2, 0)])
refused(10, 1, NODE, "an output twice among the results of one call", TWICE, node("t", "t", "", [call(0, [1, 1], [0])]))
refused(
    10, 1, NODE, "one flow for all eight results of a call",
    node("t", "t " * 8, "", [plain(1 + i, 0) for i in range(8)]),
    node("t", "t", "", [call(0, [1] * 8, [0])]),
)
refused(10, 1, NODE, "an output by two calls", COPY, node("t", "t", "", [call(0, [1], [0]), call(0, [1], [0])]))
refused(10, 1, NODE, "a local by a call and a plain equation", COPY, node("t", "t", "t", [plain(1, 0), call(0, [2], [0]), plain(2, 0)]))
refused(10, 1, NODE, "a local by a delay and a call", COPY, node("t", "t", "t", [plain(1, 0), delay(2, True, 0), call(0, [2], [0])]))
refused(10, 1, NODE, "the last results of two calls are one flow", TWICE, node("t", "t t", "t", [
    call(0, [1, 3], [0]), call(0, [2, 3], [0]),
]))
refused(10, 0, NODE, "an input defined by a plain equation", node("t t", "t", "", [plain(2, 0), plain(1, 0)]))
refused(10, 0, NODE, "an input defined by itself", node("t", "t", "", [plain(0, 0), plain(1, 0)]))
refused(10, 0, NODE, "an input defined by a delay", node("t", "t", "", [plain(1, 0), delay(0, True, 1)]))
refused(10, 1, NODE, "an input as result of a call", COPY, node("t t", "t", "", [plain(2, 0), call(0, [1], [0])]))
refused(10, 0, NODE, "the last of eight inputs defined", node("t " * 8, "t", "", [plain(8, 0), plain(7, 0)]))
refused(10, 0, NODE, "an input instead of the output", node("t", "t", "", [plain(0, True)]))
refused(10, 0, NODE, "the flow of a derived clock is not defined", node("t", "t", "t t1", [
    plain(1, 0), plain(3, on(0, 2), 1),
], [(0, 2, True)]))

# 11: flows that rest on themselves

refused(11, 0, NODE, "an output that is itself", one("t", "t", 1))
refused(11, 0, NODE, "an output that is not itself", one("t", "t", ("not", 1)))
refused(11, 0, NODE, "an output that is itself where it does not matter", one("t", "t", ("if", True, 0, 1)))
refused(11, 0, NODE, "an output as condition of its own if", one("t", "t", ("if", 1, 0, 0)))
refused(11, 0, NODE, "an output less itself", one("n", "n", ("less", 1, 1)))
refused(11, 0, NODE, "two flows, each the other", node("t", "t", "t", [plain(1, 2), plain(2, 1)]))
refused(11, 0, NODE, "two locals, each the other, and an output apart from them", node("t", "t", "t t", [
    plain(1, 0), plain(2, 3), plain(3, 2),
]))
refused(11, 0, NODE, "three flows round", node("t", "t", "t t", [plain(1, 2), plain(2, 3), plain(3, 1)]))
refused(11, 0, NODE, "three flows round the other way", node("t", "t", "t t", [plain(1, 3), plain(2, 1), plain(3, 2)]))
refused(11, 0, NODE, "23 flows round", node("t", "t " * 8, "t " * 15, [*[plain(1 + i, 2 + i) for i in range(22)], plain(23, 1)]))
refused(11, 0, NODE, "22 flows in a row, and the last is itself", node("t", "t " * 8, "t " * 15, [
    *[plain(1 + i, 2 + i) for i in range(22)], plain(23, 23),
]))
refused(11, 0, NODE, "a flow that leads to a round but is not in it", node("t", "t", "t t", [plain(1, 2), plain(2, 3), plain(3, 2)]))
refused(11, 0, NODE, "one of two sums round, the other by a delay", node("n", "n", "n n", [
    plain(1, ("plus", 2, 3)), delay(2, 0, 1), plain(3, ("plus", 1, 0)),
]))
refused(
    11, 0, NODE, "a merge by the flow that it defines",
    one("t", "t", ("merge", 1, on(0, 1), off(0, 1)), clocks=[(0, 1, True), (0, 1, False)]),
)
refused(11, 0, NODE, "a merge of a flow that is kept from the merge", node("t n", "n", "n1", [
    plain(2, ("merge", 0, 3, off(1, 0))), plain(3, on(2, 0), 1),
], SIDES))
refused(
    11, 0, NODE, "a when of the flow that it is merged into, in one expression",
    one("t n", "n", ("merge", 0, on(2, 0), off(1, 0)), clocks=SIDES),
)
refused(11, 0, NODE, "the flow of a when rests on what is kept", node("t", "t", "t1 t2 t", [
    plain(1, 0), plain(2, on(0, 4), 1), plain(3, off(0, 4), 2), plain(4, ("merge", 4, 2, 3)),
], [(0, 4, True), (0, 4, False)]))
refused(11, 0, NODE, "a clock by a flow that rests on a flow on that clock", node("t", "t", "t1 t2 t t", [
    plain(1, 0), plain(2, on(0, 4), 1), plain(3, off(0, 4), 2), plain(4, ("not", 5)), plain(5, ("merge", 4, 2, 3)),
], [(0, 4, True), (0, 4, False)]))
refused(11, 0, NODE, "a delay on a clock by a flow that rests on the delay", node("t", "t", "t1 t2 t t", [
    plain(1, 0), delay(2, True, 2, 1), delay(3, False, 3, 2), plain(4, 5), plain(5, ("merge", 4, 2, 3)),
], [(0, 4, True), (0, 4, False)]))
# clocks 1 and 2 are the sides of flow 2, clocks 3 and 4 those of flow 3, which is on clock 1
refused(11, 0, NODE, "a clock two deep, whose base flow rests on a flow on it", node("t", "t", "t t1 t3 t4 t1", [
    plain(1, 0), plain(2, ("merge", 2, 6, off(0, 2))), delay(3, True, 3, 1), delay(4, True, 4, 3), delay(5, True, 5, 4),
    plain(6, ("merge", 3, 4, 5), 1),
], [(0, 2, True), (0, 2, False), (1, 3, True), (1, 3, False)]))
refused(11, 1, NODE, "a result that is the argument", COPY, node("t", "t", "", [call(0, [1], [1])]))
refused(11, 1, NODE, "a result that is in an operation in the argument", COPY_NUMBER, node("n", "n", "", [
    call(0, [1], [("plus", 0, 1)]),
]))
refused(11, 1, NODE, "a result that comes back by a plain flow", COPY, node("t", "t", "t", [call(0, [1], [2]), plain(2, ("not", 1))]))
refused(
    11, 1, NODE, "a result that comes back into a callee that only delays",
    node("n", "n", "", [delay(1, 0, 0)]),
    node("n", "n", "n", [call(0, [1], [2]), plain(2, ("plus", 1, 0))]),
)
refused(11, 1, NODE, "a result that comes back into a callee that does not use it", one("n", "n", number(1)), node("n", "n", "", [
    call(0, [1], [1]),
]))
refused(11, 1, NODE, "the second result comes back as the last argument", TWO_TWO, node("t", "t", "t", [call(0, [1, 2], [0, 2])]))
refused(11, 1, NODE, "the first result comes back as the second argument, though it is made of the first", TWO_TWO, node("t", "t", "t", [
    call(0, [1, 2], [0, 1]),
]))
EIGHT_TRUTHS = node("t " * 8, "t " * 8, "", [plain(8 + i, i) for i in range(8)])
for i in range(8):
    arguments = [0] * 8
    arguments[i] = ("not", 1)
    refused(11, 1, NODE, f"the first result comes back as argument {i} of eight", EIGHT_TRUTHS, node("t", "t " * 8, "", [
        call(0, list(range(1, 9)), arguments),
    ]))
    refused(11, 1, NODE, f"result {i} of eight comes back as the fourth argument", EIGHT_TRUTHS, node("t", "t " * 8, "", [
        call(0, list(range(1, 9)), [0, 0, 0, 1 + i, 0, 0, 0, 0]),
    ]))
refused(11, 1, NODE, "two calls, each with the result of the other", COPY, node("t", "t", "t", [call(0, [1], [2]), call(0, [2], [1])]))
refused(11, 1, NODE, "a call on a clock by a flow that rests on its result", COPY, node("t", "t", "t1 t2 t", [
    plain(1, 0), call(0, [2], [on(0, 4)], 1), plain(3, off(0, 4), 2), plain(4, ("merge", 4, 2, 3)),
], [(0, 4, True), (0, 4, False)]))
refused(11, 1, NODE, "a result that comes back under not, and is the flow of a clock", COPY, node("t", "t", "t1", [
    call(0, [1], [("not", 1)]), plain(2, on(0, 1), 1),
], [(0, 1, True)]))
refused(11, 0, NODE, "an output that is itself, in a node that nothing calls", one("t", "t", 1), COPY)
refused(
    11, 1, NODE, "an output that is itself, in the second of three nodes, which the main one does not call",
    COPY,
    one("t", "t", 1),
    node("t", "t", "", [call(0, [1], [0])]),
)
done("a plain flow round by a delay", node("n", "n", "n", [plain(1, ("plus", 2, 0)), delay(2, 0, ("minus", 1))]))
done("three flows round, one of them a delay", node("n", "n", "n n", [plain(1, 2), plain(2, 3), delay(3, 0, 1)]))
done("three flows round, the delay in the middle", node("n", "n", "n n", [plain(1, 2), delay(2, 0, 3), plain(3, 1)]))
done("a result round by a delay of the caller", COPY, node("t", "t", "t", [call(0, [1], [2]), delay(2, True, 1)]))
done("a merge by a delay of the merged flow", node("t", "t", "t", [
    plain(1, ("merge", 2, on(0, 2), off(("not", 0), 2))), delay(2, True, 1),
], [(0, 2, True), (0, 2, False)]))
done("a delay on a derived clock round a plain flow on it", node("t n", "n1", "n1", [
    plain(2, ("plus", 3, on(1, 0)), 1), delay(3, 0, 2, 1),
], ON))
done("two chains that meet and part, no round", node("n", "n", "n n n n", [
    plain(1, ("plus", 2, 3)), plain(2, 4), plain(3, ("plus", 4, 5)), plain(4, 5), plain(5, 0),
]))
done("equations in the reverse of the order in which they can be worked out", COPY, node("t n", "n", "n1 t n2 t", [
    plain(2, ("merge", 4, 3, 5)), plain(3, on(1, 4), 1), plain(5, off(1, 4), 2), call(0, [4], [6]), plain(6, ("not", 0)),
], [(0, 4, True), (0, 4, False)]))

# 12: the size of the expansion

# a call of node 0 adds 3 flows, one of node 1 adds 1 + 8 + 8 * 3 = 33; the main node has 17: 17 + 15 * 33 = 512
ADDS_3 = node("t", "t", "t t", [plain(1, 0), plain(2, 0), plain(3, 0)])
ADDS_33 = node("t", "t", "t " * 8, [plain(1, 0), *[call(0, [2 + i], [0]) for i in range(8)]])
done("512 flows", ADDS_3, ADDS_33, node("t", "t", "t " * 15, [plain(1, 0), *[call(1, [2 + i], [0]) for i in range(15)]]))
refused(12, 2, NODE, "513 flows, by one more input", ADDS_3, ADDS_33, node("t t", "t", "t " * 15, [
    plain(2, 0), *[call(1, [3 + i], [0]) for i in range(15)],
]))
refused(12, 2, NODE, "513 flows, by one more output", ADDS_3, ADDS_33, node("t", "t t", "t " * 15, [
    plain(1, 0), plain(2, 0), *[call(1, [3 + i], [0]) for i in range(15)],
]))
refused(12, 3, NODE, "513 flows, by the input of one more callee", ADDS_3, ADDS_33, COPY, node("t", "t", "t " * 15, [
    call(2, [1], [0]), *[call(1, [2 + i], [0]) for i in range(15)],
]))
# a call of node 0 adds 8 flows, one of node 1 adds 1 + 15 + 16 * 8 = 144; the main node has 24:
# 24 + 3 * 144 + 7 * 8 = 512
ADDS_8 = node("t " * 8, "t", "", [plain(8, 0)])
ADDS_144 = node("t", "t", "t " * 15, [call(0, [1 + i], [0] * 8) for i in range(16)])
ALMOST = [call(1, [1 + i], [0]) for i in range(3)] + [call(0, [4 + i], [0] * 8) for i in range(7)] + [plain(11 + i, 0) for i in range(12)]
done("512 flows, most of them for arguments", ADDS_8, ADDS_144, node("t", "t " * 8, "t " * 15, [*ALMOST, plain(23, 0)]))
refused(12, 3, NODE, "513 flows, most of them for arguments", ADDS_8, ADDS_144, COPY, node("t", "t " * 8, "t " * 15, [
    *ALMOST, call(2, [23], [0]),
]))
# node 1 has 7 * (1 + 32) + 24 = 255 cells in all, a call of it 256; 15 * 256 + 8 * 32 = 4,096
CELLS_32 = one("t", "t", nots(32))
CELLS_255 = node("t", "t", "t " * 7, [plain(1, nots(24)), *[call(0, [2 + i], [0]) for i in range(7)]])
MANY_CELLS = [plain(1 + i, nots(32)) for i in range(8)] + [call(1, [9 + i], [0]) for i in range(14)]
done("4,096 cells", CELLS_32, CELLS_255, node("t", "t " * 8, "t " * 15, [*MANY_CELLS, call(1, [23], [0])]))
refused(12, 2, NODE, "4,097 cells, by one more in an argument", CELLS_32, CELLS_255, node("t", "t " * 8, "t " * 15, [
    *MANY_CELLS, call(1, [23], [nots(2)]),
]))
done("4,096 cells, some of them in a delay", CELLS_32, CELLS_255, node("t", "t " * 8, "t " * 15, [
    delay(1, True, nots(31)), *MANY_CELLS[1:], call(1, [23], [nots(2)]),
]))
refused(12, 2, NODE, "4,097 cells, by one more in a delay", CELLS_32, CELLS_255, node("t", "t " * 8, "t " * 15, [
    delay(1, True, nots(32)), *MANY_CELLS[1:], call(1, [23], [nots(2)]),
]))
# node 1 has 8 * 32 + 1 + 1 = 258 cells in all, a call of it 259; 15 * 259 + 6 * 32 + 19 = 4,096
CELLS_258 = node("t", "t", "t", [plain(1, 0), call(0, [2], [nots(32)] * 8)])
MANY_ARGUMENTS = [call(1, [8 + i], [0]) for i in range(15)] + [plain(1 + i, nots(32)) for i in range(6)]
done("4,096 cells, most of them in arguments", ADDS_8, CELLS_258, node("t", "t " * 7, "t " * 15, [*MANY_ARGUMENTS, plain(7, nots(19))]))
refused(12, 2, NODE, "4,097 cells, most of them in arguments", ADDS_8, CELLS_258, node("t", "t " * 7, "t " * 15, [
    *MANY_ARGUMENTS, plain(7, nots(20)),
]))


def repeating(first, *times):
    """A node, and nodes of which each makes so many calls of the one before it, one on the result of the other."""
    nodes = [first]
    for k, count in enumerate(times):
        chain = [0, *range(2, count + 1), 1]
        nodes.append(node("t", "t", "t " * (count - 1), [call(k, [chain[i + 1]], [chain[i]]) for i in range(count)]))
    return nodes


# a call of node k adds the flows 1, 4, 10, 22, 46, 94, 190; the main node has 3: 3 + 2 * 190 = 383
done("8 nodes, each twice the one before it: 128 copies of the first", *repeating(COPY, 2, 2, 2, 2, 2, 2, 2))
# a call of node k adds the flows 1, 6, 21, 66, 201; a main node has 4: 4 + 3 * 66 = 202, 4 + 3 * 201 = 607
done("5 nodes, each three times the one before it: 202 flows", *repeating(COPY, 3, 3, 3, 3))
refused(12, 5, NODE, "6 nodes, each three times the one before it: 607 flows", *repeating(COPY, 3, 3, 3, 3, 3))
refused(12, 7, NODE, "8 nodes, each three times the one before it", *repeating(COPY, 3, 3, 3, 3, 3, 3, 3))
SIXTEEN = node("t", "t", "t " * 15, [plain(1 + i, 0) for i in range(16)])
# 16 * 16 * 16 * 16 * 16 * 16 * 23 calls of the first node
EXPLODING = repeating(SIXTEEN, 16, 16, 16, 16, 16, 16)
refused(
    12, 7, NODE, "16 calls in each of six nodes and 23 in the main one",
    *EXPLODING,
    node("t", "t " * 8, "t " * 15, [call(6, [1 + i], [0]) for i in range(23)]),
)
# a call of node 0 adds 16 cells and one for its argument, 17; one of node k adds 1 + 16 times what one of the
# node before it does: 17, 273, 4,369, 69,905, 1,118,481, 17,895,697. With 15 calls that is 1 + 15 * 273 = 4,096
# for node 2 and 1 + 15 * 17,895,697 = 268,435,456 for node 6; and the flows are one more than the cells
refused(12, 3, NODE, "65,536 cells and 65,537 flows", *repeating(SIXTEEN, 16, 15, 16))
refused(12, 7, NODE, "4,294,967,296 cells and 4,294,967,297 flows", *repeating(SIXTEEN, 16, 16, 16, 16, 16, 15, 16))
refused(12, 7, NODE, "16 calls in each of seven nodes", *repeating(SIXTEEN, 16, 16, 16, 16, 16, 16, 16))
refused(12, 7, NODE, "16 calls in each of six nodes, one in the main one", *EXPLODING, node("t", "t", "", [call(6, [1], [0])]))
refused(12, 2, NODE, "16 calls in each of two nodes of 17 flows", *repeating(SIXTEEN, 16, 16))
done("16 calls of a node of 17 flows", *repeating(SIXTEEN, 16))
done("the same nodes, and a main node that calls none", *EXPLODING, COPY)
done("the same nodes, and a main node that calls the first", *EXPLODING, node("t", "t", "", [call(0, [1], [0])]))
done("the same nodes, and a main node that calls the second", *EXPLODING, node("t", "t", "", [call(1, [1], [0])]))
refused(12, 7, NODE, "the same nodes, and a main node that calls the third", *EXPLODING, node("t", "t", "", [call(2, [1], [0])]))
done(
    "too large as main node, and not called",
    ADDS_3,
    ADDS_33,
    node("t t", "t", "t " * 15, [plain(2, 0), *[call(1, [3 + i], [0]) for i in range(15)]]),
    COPY,
)
done(
    "too many cells as main node, and not called",
    CELLS_32,
    CELLS_255,
    node("t", "t " * 8, "t " * 15, [*MANY_CELLS, call(1, [23], [nots(2)])]),
    COPY,
)
refused(
    12, 3, NODE, "one call of a node with 512 flows",
    ADDS_3,
    ADDS_33,
    node("t", "t", "t " * 15, [plain(1, 0), *[call(1, [2 + i], [0]) for i in range(15)]]),
    node("t", "t", "", [call(2, [1], [0])]),
)
refused(
    10, 1, NODE, "23 calls in each of seven nodes, with only 16 flows for them",
    COPY,
    *[node("t", "t", "t " * 15, [call(k, [1 + i % 16], [0]) for i in range(23)]) for k in range(7)],
)

# Places: the same fault in each equation of three, in a plain equation, a delay and a call, in the first,
# the last and a middle node. Flow 9 is not there; two values are left; a number is no truth; when is on clock 1

for check, wrong in {6: 9, 7: [0, 0], 8: number(1), 9: on(0, 0)}.items():
    for i in range(3):
        equations = [plain(1, 0), plain(2, 0), plain(3, 0)]
        equations[i] = plain(1 + i, wrong)
        refused(
            check, 0, i, f"check {check} fails in equation {i} of three, plain, first node",
            node("t", "t t t", "", equations, ON),
            COPY,
            COPY,
        )
        equations[i] = delay(1 + i, True, wrong)
        refused(
            check, 2, i, f"check {check} fails in equation {i} of three, a delay, last node",
            COPY,
            COPY,
            node("t", "t t t", "", equations, ON),
        )
        equations[i] = call(0, [1 + i], [wrong])
        refused(
            check, 1, i, f"check {check} fails in equation {i} of three, a call, second node",
            COPY,
            node("t", "t t t", "", equations, ON),
            COPY,
        )

# nodes in which a check fails for the node as a whole
WHOLE = {
    6: node("t", "t", "t7", [plain(1, 0), plain(2, 0)]),
    8: node("t n", "t", "", [plain(2, 0)], [(0, 1, True)]),
    9: node("t", "t", "", [plain(1, 0)], [(0, 0, True), (0, 0, True)]),
    10: node("t", "t", "t", [plain(1, 0)]),
    11: node("t", "t", "t", [plain(1, 0), plain(2, 2)]),
}
for check, faulty in WHOLE.items():
    for k in range(3):
        nodes = [COPY, COPY, COPY]
        nodes[k] = faulty
        refused(check, k, NODE, f"check {check} fails for node {k} of three as a whole", *nodes)
    nodes = [COPY] * 7 + [faulty]
    refused(check, 7, NODE, f"check {check} fails for the last of eight nodes as a whole", *nodes)

# Order: two faults in a block

# nodes in which one check fails, and the place where
FAULTY = {
    6: (node("t", "t", "", [plain(1, 9)]), 0),
    7: (node("t", "t", "", [plain(1, [0, 0])]), 0),
    8: (node("t", "t", "", [plain(1, number(1))]), 0),
    9: (node("t", "t", "t", [plain(1, 0), plain(2, on(0, 0))], ON), 1),
    10: (node("t", "t", "t", [plain(1, 0)]), NODE),
    11: (node("t", "t", "", [plain(1, 1)]), NODE),
}
for later in FAULTY:
    for earlier, (faulty, place) in FAULTY.items():
        if earlier < later:
            refused(earlier, 1, place, f"check {later} fails in node 0, and check {earlier} in node 1", FAULTY[later][0], faulty)
            refused(earlier, 0, place, f"check {earlier} fails in node 0, and check {later} in node 1", faulty, FAULTY[later][0])
TOO_LARGE = repeating(SIXTEEN, 16, 16)
CALLS = [call(2, [1 + i], [0]) for i in range(2)]
refused(12, 3, NODE, "two calls of a node that is too large", *TOO_LARGE, node("t", "t t", "", CALLS))
refused(6, 3, 2, "too large, and a flow that is not there in the last equation", *TOO_LARGE, node("t", "t t t", "", [
    *CALLS, plain(3, 9),
]))
refused(7, 3, 2, "too large, and out of shape in the last equation", *TOO_LARGE, node("t", "t t t", "", [*CALLS, plain(3, [0, 0])]))
refused(8, 3, 2, "too large, and a wrong kind in the last equation", *TOO_LARGE, node("t", "t t n", "", [*CALLS, plain(3, 0)]))
refused(9, 3, 2, "too large, and a wrong clock in the last equation", *TOO_LARGE, node("t", "t t t1", "", [*CALLS, plain(3, 0, 1)], ON))
refused(10, 3, NODE, "too large, and an output that is not defined", *TOO_LARGE, node("t", "t t t", "", CALLS))
refused(11, 3, NODE, "too large, and an output that rests on itself", *TOO_LARGE, node("t", "t t t", "", [*CALLS, plain(3, 3)]))
refused(
    11, 0, NODE, "too large, and a round in the first node",
    node("t", "t", "t " * 15, [plain(1 + i, 1) for i in range(16)]),
    *TOO_LARGE[1:],
    node("t", "t t", "", CALLS),
)

refused(6, 0, NODE, "6 for the node as a whole and in its first equation", one("t", "t2", 9))
refused(6, 0, NODE, "6 for a flow and a derived clock", one("t", "t2", 0, clocks=[(1, 0, True)]))
refused(6, 0, 1, "6 in the last equation of node 0 and for node 1 as a whole", node("t", "t", "", [plain(1, 0), plain(9, 0)]), WHOLE[6])
refused(6, 0, 0, "6 in two equations", node("t", "t t", "", [plain(1, 9), plain(2, 9)]))
refused(6, 0, 1, "6 in the last two of three equations, first a callee and then a flow", node("t", "t t t", "", [
    plain(1, 0), call(5, [2], [0]), plain(3, 9),
]))
refused(6, 0, NODE, "6 in both nodes as a whole", WHOLE[6], WHOLE[6])
refused(
    7, 0, 1, "7 in two equations and a later node",
    node("t", "t t t", "", [plain(1, 0), plain(2, ["and"]), plain(3, [0, 0])]),
    FAULTY[7][0],
)
refused(
    7, 0, 1, "7 in the last equation of node 0 and the first of node 1",
    node("t", "t t", "", [plain(1, 0), delay(2, True, [0, 0])]),
    FAULTY[7][0],
)
refused(8, 0, NODE, "8 for the node as a whole and in its first equation", one("t n", "t", 1, clocks=[(0, 1, True)]))
refused(8, 0, 0, "8 in the equation of node 0 and for node 1 as a whole", FAULTY[8][0], WHOLE[8])
refused(8, 0, 1, "8 in the last two of three equations", node("t", "t n n", "", [plain(1, 0), plain(2, 0), plain(3, 0)]))
refused(9, 0, NODE, "9 for the node as a whole and in its first equation", one("t", "t", on(0, 0), clocks=[(0, 0, True), (0, 0, True)]))
refused(9, 0, NODE, "9 for an input and for a derived clock", one("t1", "t", True, clocks=[(0, 1, True), (0, 1, True)]))
refused(9, 0, 1, "9 in the last equation of node 0 and for node 1 as a whole", FAULTY[9][0], WHOLE[9])
refused(9, 0, 0, "9 in two equations", node("t", "t t", "", [plain(1, on(0, 0)), plain(2, on(0, 0))], ON))
refused(10, 0, NODE, "10 in both nodes", WHOLE[10], WHOLE[10])
refused(11, 0, NODE, "11 in both nodes", WHOLE[11], WHOLE[11])
refused(11, 1, NODE, "11 in the last two of three nodes", COPY, WHOLE[11], WHOLE[11])
refused(7, 0, 2, "8 in the first equation, 9 in the second, 7 in the third", node("t", "t t t", "", [
    plain(1, number(1)), plain(2, on(0, 0)), plain(3, [0, 0]),
], ON))
refused(6, 0, 3, "faults 7, 8 and 9 in the first equations, 6 in the last", node("t", "t t t t", "", [
    plain(1, [0, 0]), plain(2, number(1)), plain(3, on(0, 0)), plain(4, 0, 5),
], ON))
refused(7, 0, 0, "8 for the node as a whole and 7 in its equation", one("t n", "t", [0, 0], clocks=[(0, 1, True)]))
refused(8, 0, 0, "9 for the node as a whole and 8 in its equation", one("t", "t", number(1), clocks=[(0, 0, True), (0, 0, True)]))
refused(9, 0, 0, "9 in an equation of a node with an undefined output and a round", node("t", "t t t", "", [
    plain(1, on(0, 0)), plain(2, 2),
], ON))
refused(6, 0, 0, "6 and 7 in one expression", one("t", "t", [9, 0]))
refused(7, 0, 0, "7 and 8 in one expression", one("n", "t", [0, 0, "and", 0]))
refused(8, 0, 0, "8 and 9 in one expression", one("t n", "t", ("and", on(0, 0), 1), clocks=ON))
refused(6, 0, 0, "merge by a flow that is not there, in a delay", node("t", "t", "", [delay(1, True, ("merge", 9, 0, 0))]))
refused(10, 0, NODE, "an output twice, once of itself", node("t", "t", "", [plain(1, 1), plain(1, 0)]))
refused(8, 0, 0, "an input defined, of the wrong kind", node("t", "t", "", [plain(0, number(1)), plain(1, 0)]))

# Blocks that reading refuses. A node of a truth input and a truth output takes bits 11 to 31 up to its
# equations, so that their number begins at bit 32, the first equation at bit 37 and its first cell at bit 52

HEAD = block(node("t", "t", "", []))[:-1]
unread(2, 0, "no bytes", "-")
unread(2, 0, "2,049 bytes", hex_of(block(node("n", "n " * 8, "n " * 15, [*LONG, plain(23, [*cells_of(LAST), *["minus"] * 4])]))))
unread(4, 0, "another mark", "A70000000802100180")
unread(3, 8, "the mark alone", "B7")
unread(3, 61, "without its last byte", "B700000008021001")
unread(5, 66, "a filling bit that is not 0", "B70000000802100181")
unread(5, 66, "the first filling bit is not 0", "B700000008021001A0")
unread(5, 66, "a further byte", "B7000000080210018000")
unread(4, 32, "no equation", hex_of(HEAD + [(5, 0)]))
unread(4, 32, "24 equations", hex_of(HEAD + [(5, 24)]))
unread(4, 32, "31 equations", hex_of(HEAD + [(5, 31)]))
unread(4, 37, "form 3", hex_of(HEAD + [(5, 1), (2, 3), (3, 0), (5, 1), *expression_fields(0)]))
unread(4, 52, "operator 8", hex_of(HEAD + [(5, 1), (2, 0), (3, 0), (5, 1), (5, 0), (4, 8), (5, 0)]))
unread(4, 61, "operator 15 in the second cell", hex_of(HEAD + [(5, 1), (2, 0), (3, 0), (5, 1), (5, 1), (4, 0), (5, 0), (4, 15)]))
unread(4, 74, "binary code 9", hex_of(HEAD + [(5, 1), (2, 0), (3, 0), (5, 1), (5, 2), (4, 0), (5, 0), (4, 0), (5, 0), (4, 4), (4, 9)]))
unread(3, 39, "the bytes end in the clock of an equation", hex_of([(8, 183), (3, 1), *HEAD[2:], (5, 1), (2, 0), (1, 0)])[:10])
unread(3, 72, "two nodes are announced and one is there", hex_of([(8, 183), (3, 1), *HEAD[2:], (5, 1), *plain(1, ("not", 0))]))
unread(5, 66, "a misfit, and a further byte", hex_of(block(node("t", "t", "", [plain(9, ("not", 0))]))) + "00")
unread(4, 61, "a misfit in the first equation, and form 3 in the second", hex_of(HEAD + [(5, 2), *plain(9, 9), (2, 3), (3, 0)]))
unread(3, 62, "out of shape, and the bytes end in the second equation", hex_of(HEAD + [(5, 2), *plain(1, ["not"])])[:16])


def main(what):
    for comment, digits, line in CASES:
        assert examine_rules.answer(digits) == line, (comment, line, examine_rules.answer(digits))
    assert len({comment for comment, _, _ in CASES}) == len({digits for _, digits, _ in CASES}) == len(CASES)
    if what == "stdin":
        for comment, digits, _ in CASES:
            print(f"# {comment}\nexamine {digits}")
    elif what == "stdout":
        for _, _, line in CASES:
            print(line)
    elif what == "counts":
        answers = [line.split()[1:3] for _, _, line in CASES]
        for answer in sorted({tuple(answer) for answer in answers}, key=lambda a: int(a[-1]) if a[1:] else 0):
            print(" ".join(answer), answers.count(list(answer)))
        print("all", len(CASES))
    else:
        sys.exit("usage: examine_cases.py stdin | stdout | counts")


if __name__ == "__main__":
    main(sys.argv[1] if len(sys.argv) == 2 else "")
