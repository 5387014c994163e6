"""What tests/page expects of leaks, worked out from the definition of equal counts (docs/RULES.md, Leaks)."""
import itertools
import json
import re


GATES = {"XOR": lambda first, last: first ^ last, "AND": lambda first, last: first & last,
         "INV": lambda first, _: 1 - first, "EQW": lambda first, _: first}


def gates_of(netlist):
    """The gate lines of a written form: name, operands and result."""
    lines = [line.split() for line in netlist.splitlines()[3:] if line]
    return [(words[-1], list(map(int, words[2:-2])), int(words[-2])) for words in lines]


def wires_of(gates, codes, ones, m0, m1):
    """Every wire where those input bits are one, under two mask bits."""
    masks = [0, m0, m1, m0 ^ m1]
    wires = {bit: int(bit in ones) ^ masks[int(code)] for bit, code in enumerate(codes)}
    wires.update({len(codes): m0, len(codes) + 1: m1})
    for name, operands, result in gates:
        wires[result] = operands[0] if name == "EQ" else GATES[name](wires[operands[0]], wires[operands[-1]])
    return wires


def counts_of(netlist, codes, ones):
    """How many of the four mask settings make each wire one, where those input bits are one."""
    runs = [wires_of(gates_of(netlist), codes, ones, m0, m1) for m0, m1 in itertools.product((0, 1), repeat=2)]
    return {wire: sum(run[wire] for run in runs) for wire in runs[0]}


def settings(codes):
    """All settings, each as the input bits that are one."""
    return [{bit for bit in range(len(codes)) if number >> bit & 1} for number in range(2 ** len(codes))]


def leaking_of(netlist, codes):
    """The wires that leak, where no bit is public, and the causes among them: no operand of theirs leaks."""
    counts = [counts_of(netlist, codes, ones) for ones in settings(codes)]
    leaking = {wire for wire in counts[0] if any(each[wire] != counts[0][wire] for each in counts)}
    given = {result: set(operands) for _, operands, result in gates_of(netlist)}
    return leaking, {wire for wire in leaking if not leaking & given[wire]}


def sum_holds(netlist, codes, wire, terms):
    """Whether a wire is the sum of products of m0, m1 and the input bits x0, x1 .., in every setting."""
    gates = gates_of(netlist)
    for ones, (m0, m1) in itertools.product(settings(codes), itertools.product((0, 1), repeat=2)):
        value = {"1": 1, "m0": m0, "m1": m1, **{f"x{bit}": int(bit in ones) for bit in range(len(codes))}}
        made = sum(all(value[name] for name in term.split("·")) for term in terms) % 2
        if made != wires_of(gates, codes, ones, m0, m1)[wire]:
            return False
    return True


def broken(masked, number):
    """A masked netlist in which the last two steps of an AND have changed places, so that one joins too early."""
    lines = masked.split("\n")
    either = str(sum(map(int, lines[1].split()[1:])) + 2)
    place = [index for index, line in enumerate(lines) if line.endswith("XOR") and line.split()[3] == either][number]
    upper, lower = lines[place].split(), lines[place + 1].split()
    lines[place] = f"2 1 {lower[2]} {upper[2]} {upper[4]} XOR"
    lines[place + 1] = f"2 1 {upper[4]} {either} {lower[4]} XOR"
    return "\n".join(lines)


def leaks_by_hand(label, masks=(1, 2)):
    """Whether a way to join the five terms leaks, from the definition of equal counts alone."""
    settings = list(itertools.product((0, 1), repeat=2))

    def terms(a, b, m0, m1):
        mask = {1: m0, 2: m1, 3: m0 ^ m1}
        p, q = mask[masks[0]], mask[masks[1]]
        x, y = a ^ p, b ^ q
        return {"A·B": x & y, "A·Q": x & q, "Q": q, "P·B": p & y, "O": m0 | m1}

    wires = []

    def wire(tree):
        if isinstance(tree, str):
            return [terms(a, b, m0, m1)[tree] for a, b in settings for m0, m1 in settings]
        made = [left ^ right for left, right in zip(*map(wire, tree))]
        wires.append(made)
        return made

    words = re.sub(r"[A-Z][·A-Z]*", lambda name: f'"{name.group()}"', label).replace("⊕", ",")
    wire(json.loads("[" + words.replace("(", "[").replace(")", "]") + "]"))
    return any(len({sum(made[4 * setting:4 * setting + 4]) for setting in range(4)}) > 1 for made in wires)
