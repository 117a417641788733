"""What examining answers for a block, worked out from docs/FORMAT.md and docs/RULES.md.

For tests alone, and by other means than the program's: a block is read from a list of bits into plain
dictionaries, an expression is taken apart from its last cell backwards, a clock is the chain of sides that
leads to it from the base, cycles are found by depth-first search, and the expansion is really built.
"""

FORMS = ["plain", "delay", "call"]
CELLS = ["flow", "truth", "number", "unary", "binary", "when", "merge", "if"]
UNARY = ["not", "minus"]
BINARY = ["and", "or", "xor", "plus", "less", "times", "quotient", "below", "same"]
KINDS = ["truth", "number"]

NO_EQUATION = 31
MOST_BYTES = 2048
MOST_WAITING = 8
MOST_FLOWS = 512
MOST_CELLS = 4096


class Refused(Exception):
    """Number, stage and two places of a refusal."""


# Reading


class Bits:
    """The bits of a block, and how far they are read."""

    def __init__(self, data):
        self.bits = [byte >> (7 - i) & 1 for byte in data for i in range(8)]
        self.at = 0

    def field(self, width, meanings=None):
        """The next field as a number; where there are meanings, it must be one of them."""
        first, self.at = self.at, self.at + width
        if self.at > len(self.bits):
            raise Refused(3, "reading", first, 0)
        value = int("".join(map(str, self.bits[first:self.at])), 2)
        if meanings is not None and value not in meanings:
            raise Refused(4, "reading", first, 0)
        return value

    def named(self, width, names):
        return names[self.field(width, range(len(names)))]

    def signed(self):
        value = self.field(32)
        return value - (1 << 32) if value >> 31 else value


def read_cell(bits):
    cell = {"is": bits.named(4, CELLS)}
    if cell["is"] in ("flow", "when", "merge"):
        cell["flow"] = bits.field(5)
    if cell["is"] == "truth":
        cell["value"] = bits.field(1)
    if cell["is"] == "number":
        cell["value"] = bits.signed()
    if cell["is"] == "unary":
        cell["operator"] = bits.named(1, UNARY)
    if cell["is"] == "binary":
        cell["operator"] = bits.named(4, BINARY)
    if cell["is"] == "when":
        cell["side"] = bits.field(1)
    return cell


def read_expression(bits):
    return [read_cell(bits) for _ in range(bits.field(5) + 1)]


def read_equation(bits):
    equation = {"form": bits.named(2, FORMS), "clock": bits.field(3)}
    if equation["form"] == "call":
        equation["callee"] = bits.field(3)
        equation["defines"] = [bits.field(5) for _ in range(bits.field(3) + 1)]
        equation["expressions"] = [read_expression(bits) for _ in range(bits.field(3) + 1)]
        return equation
    equation["defines"] = [bits.field(5)]
    if equation["form"] == "delay":
        equation["first kind"] = bits.named(1, KINDS)
        equation["first"] = bits.field(1) if equation["first kind"] == "truth" else bits.signed()
    equation["expressions"] = [read_expression(bits)]
    return equation


def read_node(bits):
    node = {"inputs": bits.field(3) + 1, "outputs": bits.field(3) + 1, "locals": bits.field(4)}
    clocks = bits.field(3)
    count = node["inputs"] + node["outputs"] + node["locals"]
    node["flows"] = [{"kind": bits.named(1, KINDS), "clock": bits.field(3)} for _ in range(count)]
    node["clocks"] = {
        k: {"parent": bits.field(3), "flow": bits.field(5), "side": bits.field(1)} for k in range(1, clocks + 1)
    }
    node["equations"] = [read_equation(bits) for _ in range(bits.field(5, range(1, 24)))]
    return node


def read_block(data):
    if not 1 <= len(data) <= MOST_BYTES:
        raise Refused(2, "reading", 0, 0)
    bits = Bits(data)
    bits.field(8, [0xB7])
    block = [read_node(bits) for _ in range(bits.field(3) + 1)]
    rest = bits.bits[bits.at:]
    if len(rest) > 7 or any(rest):
        raise Refused(5, "reading", bits.at, 0)
    return block


# 6: what the numbers of a block name


def node_fits(block, k):
    node = block[k]
    clocks = {0} | set(node["clocks"])
    return all(flow["clock"] in clocks for flow in node["flows"]) and all(
        derived["parent"] < number and derived["flow"] < len(node["flows"])
        for number, derived in node["clocks"].items()
    )


def equation_fits(block, k, equation):
    node = block[k]
    named = list(equation["defines"])
    for expression in equation["expressions"]:
        named += [cell["flow"] for cell in expression if "flow" in cell]
    if equation["clock"] not in {0} | set(node["clocks"]) or max(named) >= len(node["flows"]):
        return False
    if equation["form"] != "call":
        return True
    if equation["callee"] >= k:
        return False
    callee = block[equation["callee"]]
    return (len(equation["defines"]), len(equation["expressions"])) == (callee["outputs"], callee["inputs"])


# 7: shape


class OutOfShape(Exception):
    pass


# which parts of a cell may be control expressions
PARTS = {
    "flow": [], "truth": [], "number": [], "unary": [False], "binary": [False, False], "when": [False],
    "merge": [True, True], "if": [False, True, True],
}


def tree_before(cells, end, control):
    """The tree whose last cell stands right before `end`, and where its cells begin."""
    if end == 0:
        raise OutOfShape
    cell = cells[end - 1]
    if cell["is"] in ("merge", "if") and not control:
        raise OutOfShape
    parts, begin = [], end - 1
    for part_control in reversed(PARTS[cell["is"]]):
        part, begin = tree_before(cells, begin, part_control)
        parts.insert(0, part)
    return dict(cell, parts=parts), begin


def waiting(tree):
    return max([1] + [i + waiting(part) for i, part in enumerate(tree["parts"])])


def tree_of(cells, control):
    tree, begin = tree_before(cells, len(cells), control)
    if begin > 0 or waiting(tree) > MOST_WAITING:
        raise OutOfShape
    return tree


def trees_of(equation):
    return [tree_of(cells, equation["form"] == "plain") for cells in equation["expressions"]]


def equation_shaped(block, k, equation):
    try:
        trees_of(equation)
    except OutOfShape:
        return False
    return True


# 8: kinds

# what an operator takes and gives
OPERATOR_KINDS = {"not": ("truth", "truth"), "minus": ("number", "number")}
OPERATOR_KINDS |= {name: ("truth", "truth") for name in ("and", "or", "xor")}
OPERATOR_KINDS |= {name: ("number", "number") for name in ("plus", "less", "times", "quotient")}
OPERATOR_KINDS |= {name: ("number", "truth") for name in ("below", "same")}


def kind_of(node, tree):
    """The kind of a tree, None where it has none."""
    kinds = [kind_of(node, part) for part in tree["parts"]]
    if tree["is"] in KINDS:
        return tree["is"]
    if tree["is"] == "flow":
        return node["flows"][tree["flow"]]["kind"]
    if tree["is"] in ("unary", "binary"):
        takes, gives = OPERATOR_KINDS[tree["operator"]]
        return gives if set(kinds) == {takes} else None
    if tree["is"] == "if":
        chooser = kinds.pop(0)
    else:
        chooser = node["flows"][tree["flow"]]["kind"]
    return kinds[0] if chooser == "truth" and len(set(kinds)) == 1 else None


def node_kinded(block, k):
    flows = block[k]["flows"]
    return all(flows[derived["flow"]]["kind"] == "truth" for derived in block[k]["clocks"].values())


def equation_kinded(block, k, equation):
    defined = [block[k]["flows"][x]["kind"] for x in equation["defines"]]
    given = [kind_of(block[k], tree) for tree in trees_of(equation)]
    if equation["form"] == "call":
        callee = block[equation["callee"]]
        ends = [flow["kind"] for flow in callee["flows"][: callee["inputs"] + callee["outputs"]]]
        return given + defined == ends
    return given == defined and equation.get("first kind", defined[0]) == defined[0]


# 9: clocks


def chain_of(node, clock):
    """A clock as the sides that lead to it from the base."""
    if clock == 0:
        return ()
    derived = node["clocks"][clock]
    return chain_of(node, derived["parent"]) + ((derived["flow"], derived["side"]),)


def flow_chain(node, flow):
    return chain_of(node, node["flows"][flow]["clock"])


def listed(node, chain):
    return chain in [chain_of(node, clock) for clock in node["clocks"]]


def tree_chain(node, tree):
    """The clock of a tree, None where it has none."""
    chains = [tree_chain(node, part) for part in tree["parts"]]
    if tree["is"] in KINDS:
        return ()
    if tree["is"] == "flow":
        return flow_chain(node, tree["flow"])
    if tree["is"] == "when":
        base = flow_chain(node, tree["flow"])
        side = base + ((tree["flow"], tree["side"]),)
        return side if chains == [base] and listed(node, side) else None
    if tree["is"] == "merge":
        base = flow_chain(node, tree["flow"])
        sides = [base + ((tree["flow"], side),) for side in (1, 0)]
        return base if chains == sides and all(listed(node, side) for side in sides) else None
    return chains[0] if len(set(chains)) == 1 else None


def node_clocked(block, k):
    node = block[k]
    for x, flow in enumerate(node["flows"]):
        chain = chain_of(node, flow["clock"])
        if x < node["inputs"] and any(y >= node["inputs"] for y, _ in chain):
            return False
        if k < len(block) - 1 and x < node["inputs"] + node["outputs"] and chain:
            return False
    for clock, derived in node["clocks"].items():
        if flow_chain(node, derived["flow"]) != chain_of(node, derived["parent"]):
            return False
    return len({chain_of(node, clock) for clock in node["clocks"]}) == len(node["clocks"])


def equation_clocked(block, k, equation):
    node = block[k]
    clocks = [flow_chain(node, x) for x in equation["defines"]]
    clocks += [tree_chain(node, tree) for tree in trees_of(equation)]
    return set(clocks) == {chain_of(node, equation["clock"])}


# 10 and 11: definitions and cycles


def node_defined(block, k):
    node = block[k]
    defined = sorted(x for equation in node["equations"] for x in equation["defines"])
    return defined == list(range(node["inputs"], len(node["flows"])))


def node_acyclic(block, k):
    node = block[k]
    rests_on = {x: set() for x in range(len(node["flows"]))}
    for equation in node["equations"]:
        needed = {x for x, _ in chain_of(node, equation["clock"])}
        if equation["form"] != "delay":
            needed |= {cell["flow"] for cells in equation["expressions"] for cell in cells if "flow" in cell}
        for x in equation["defines"]:
            rests_on[x] |= needed
    done, open_now = set(), set()

    def leads_round(x):
        if x in open_now:
            return True
        if x in done:
            return False
        open_now.add(x)
        round_found = any(leads_round(y) for y in rests_on[x])
        open_now.remove(x)
        done.add(x)
        return round_found

    return not any(leads_round(x) for x in rests_on)


# 12: size of the expansion


class TooLarge(Exception):
    pass


class Expansion:
    """The flows and cells of the main node's expansion; it stops growing at the first too many."""

    def __init__(self, block):
        self.block, self.flows, self.cells = block, [], []
        main = len(block) - 1
        self.copy(main, {x: self.new_flow(main, x) for x in range(len(block[main]["flows"]))})

    def new_flow(self, k, x):
        self.flows.append((k, x))
        if len(self.flows) > MOST_FLOWS:
            raise TooLarge
        return len(self.flows) - 1

    def add_cells(self, cells, numbers):
        self.cells += [dict(cell, flow=numbers[cell["flow"]]) if "flow" in cell else cell for cell in cells]
        if len(self.cells) > MOST_CELLS:
            raise TooLarge

    def copy(self, k, numbers):
        """Adds the equations of node k; `numbers` says which flows of the expansion its flows are."""
        for equation in self.block[k]["equations"]:
            for cells in equation["expressions"]:
                self.add_cells(cells, numbers)
            if equation["form"] == "call":
                m = equation["callee"]
                callee = self.block[m]
                ends = callee["inputs"] + callee["outputs"]
                inner = {x: self.new_flow(m, x) for x in range(callee["inputs"])}
                inner |= {callee["inputs"] + i: numbers[x] for i, x in enumerate(equation["defines"])}
                inner |= {x: self.new_flow(m, x) for x in range(ends, len(callee["flows"]))}
                self.copy(m, inner)


def node_small(block, k):
    if k < len(block) - 1:
        return True
    try:
        Expansion(block)
    except TooLarge:
        return False
    return True


# Examining

CHECKS = [
    (6, node_fits, equation_fits),
    (7, None, equation_shaped),
    (8, node_kinded, equation_kinded),
    (9, node_clocked, equation_clocked),
    (10, node_defined, None),
    (11, node_acyclic, None),
    (12, node_small, None),
]


def examine(block):
    for number, node_holds, equation_holds in CHECKS:
        for k, node in enumerate(block):
            if node_holds and not node_holds(block, k):
                raise Refused(number, "examining", k, NO_EQUATION)
            for i, equation in enumerate(node["equations"]):
                if equation_holds and not equation_holds(block, k, equation):
                    raise Refused(number, "examining", k, i)


def answer(text):
    """The line that the call `examine` prints for a block in hexadecimal digits, `-` for no bytes."""
    try:
        examine(read_block(bytes.fromhex(text.replace("-", ""))))
    except Refused as refusal:
        return "examine refused {} {} {} {}".format(*refusal.args)
    return "examine done"
