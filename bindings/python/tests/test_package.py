"""The package against the rules as they are stated, against an evaluator written apart, and against the plain C of
bench/baseline.c, which is loaded as a second shared library. Seeds are fixed.

usage: python3 -m unittest discover -s bindings/python/tests      (FIDROVELJ_SHARED names another library)
"""

import contextlib
import ctypes
import doctest
import importlib
import os
import pickle
import random
import re
import subprocess
import sys
import tempfile
import threading
import unittest
from pathlib import Path

HERE = Path(__file__).resolve().parent
ROOT = HERE.parents[2]
if os.environ.get("FIDROVELJ_INSTALLED") is None:
    sys.path.insert(0, str(HERE.parent))

import fidrovelj  # noqa: E402
from fidrovelj import Leak, Masked, Netlist, Refusal, Session, Sizes, join, mask_of  # noqa: E402

found = importlib.import_module("fidrovelj.library")
DATA = ROOT / "crates" / "vectors_circuits" / "data"
KINDS = ("XOR", "AND", "INV", "EQW", "EQ")
MADE = {"XOR": lambda a, b: a ^ b, "AND": lambda a, b: a & b, "INV": lambda a: 1 - a, "EQW": lambda a: a}


def second_library():
    """bench/baseline.c under the library's names, as a shared library."""
    folder = tempfile.mkdtemp()
    path = f"{folder}/libother.so"
    sources = [str(ROOT / "bench" / name) for name in ("baseline.c", "stand_in.c")]
    flags = ["-std=gnu11", "-O2", "-shared", "-fPIC", f"-I{ROOT}/include"]
    subprocess.run([os.environ.get("CC", "cc"), *flags, *sources, "-o", path], check=True)
    return found.Library(path)


@contextlib.contextmanager
def through(library):
    """Has calls go to another library."""
    kept = found.library()
    found._loaded[:] = [library]
    try:
        yield
    finally:
        found._loaded[:] = [kept]


def random_gates(chance, inputs, gates):
    """A row of random gates after so many inputs."""
    made = []
    for wire in range(inputs, inputs + gates):
        name = chance.choice(KINDS if chance.random() < 0.3 else ("XOR", "AND"))
        operands = [chance.randrange(wire) for _ in range(2 if name in ("XOR", "AND") else 1)]
        made.append((name, [chance.randrange(2)] if name == "EQ" else operands, wire))
    return made


def text_of(gates, inputs, outputs):
    """The text of a netlist with input and output values of these widths."""
    lines = [f"{len(gates)} {sum(inputs) + len(gates)}"]
    lines += [" ".join(map(str, (len(it), *it))) for it in (inputs, outputs)]
    lines += [" ".join(map(str, (len(ops), 1, *ops, wire, name))) for name, ops, wire in gates]
    return "\n".join(lines) + "\n"


def evaluate(gates, bits):
    """All wires of a row of gates on these input bits, as docs/RULES.md states it under Running."""
    values = list(bits)
    for name, operands, _ in gates:
        if name == "EQ":
            values.append(operands[0])
        else:
            read = [values[it] for it in operands]
            values.append(MADE[name](*read))
    return values


def counts(gates, codes, setting):
    """Each wire's count of the four mask settings that make it one."""
    total = None
    for m0, m1 in ((0, 0), (1, 0), (0, 1), (1, 1)):
        hidden = [(setting >> i & 1) ^ mask_of(code, m0, m1) for i, code in enumerate(codes)]
        values = evaluate(gates, hidden + [m0, m1])
        total = values if total is None else [a + b for a, b in zip(total, values)]
    return total


def first_leak(gates, codes):
    """The leak that Check names, by the rule as it is stated under Leaks."""
    public = sum(1 << i for i, code in enumerate(codes) if code == 0)
    table = [counts(gates, codes, setting) for setting in range(1 << len(codes))]
    for wire in range(len(table[0])):
        for setting, own in enumerate(table):
            base = table[setting & public][wire]
            if own[wire] != base:
                ones = tuple(i for i in range(len(codes)) if setting >> i & 1)
                return Leak(wire, ones, base, own[wire])
    return None


def said(call):
    """What a call gives, or the refusal."""
    try:
        return call()
    except Refusal as refusal:
        return refusal


class Stated(unittest.TestCase):
    """What the package repeats is what the repository states."""

    def test_parameters_are_the_header_s(self):
        header = re.sub(r"/\*.*?\*/", "", (ROOT / "include" / "fidrovelj.h").read_text(), flags=re.S)
        for name, listed in found.SERVICES.items():
            words = re.search(rf"\bfidrovelj_{name}\(([^)]*)\)", header)[1].split(",")
            kinds, names = zip(*(it.strip().rsplit(" ", 1) for it in words))
            slices = [it.lstrip("*") for kind, it in zip(kinds, names) if not it.endswith("_len") and it != "sizes"]
            self.assertEqual(len(slices), len(listed.split()), name)
            for kind, it in zip(kinds, names):
                if it.lstrip("*") in ("words", "operands", "results", "base", "records", "tally"):
                    self.assertEqual(kind.replace("const ", ""), "uint64_t", name)
            self.assertEqual(len(words), len(found._parameters(name)), name)

    def test_constants_are_the_header_s(self):
        header = (ROOT / "include" / "fidrovelj.h").read_text()
        value = lambda word: int(re.search(rf"#define FIDROVELJ_{word} (\d+)", header)[1])
        for sizes, front in ((Sizes.STANDARD, ""), (Sizes.WHOLE, "WHOLE_")):
            self.assertEqual(sizes.source_wires, value(f"{front}SMALL_TABLE"))
            self.assertEqual(sizes.masked_wires, value(f"{front}LARGE_TABLE"))
            self.assertEqual(sizes.source_text, value(f"{front}SMALL_TEXT"))
            self.assertEqual(sizes.masked_text, value(f"{front}LARGE_TEXT"))
        for number, name in fidrovelj.netlist.NAMES.items():
            self.assertEqual(value(name), number)

    def test_words_are_the_refusals_own(self):
        source = (ROOT / "crates" / "netlist" / "src" / "lib.rt").read_text()
        numbers = dict(re.findall(r"^    (\w+) = (\d+),", source, re.M))
        words = dict(re.findall(r"Refusal::(\w+) =>\s*\"([^\"]*)\"", source))
        self.assertEqual({int(numbers[name]): it for name, it in words.items()}, fidrovelj.WORDS)

    def test_versions_are_one(self):
        project = (HERE.parent / "pyproject.toml").read_text()
        self.assertIn(f'version = "{fidrovelj.__version__}"', project)

    def test_examples_of_the_modules(self):
        for name in ("fidrovelj", "fidrovelj.refusals", "fidrovelj.netlist", "fidrovelj.session"):
            result = doctest.testmod(importlib.import_module(name))
            self.assertEqual(result.failed, 0)
            self.assertGreater(result.attempted, 0)


class Values(unittest.TestCase):
    """Results against values from outside."""

    def test_aes_s_box(self):
        def times(a, b):
            product = 0
            for place in range(8):
                product ^= (a << place) * (b >> place & 1)
            for place in range(14, 7, -1):
                product ^= (0x11B << (place - 8)) * (product >> place & 1)
            return product

        def s_box(byte):
            inverse = next((it for it in range(256) if times(byte, it) == 1), 0)
            turned = [inverse << n | inverse >> (8 - n) for n in range(5)]
            return (turned[0] ^ turned[1] ^ turned[2] ^ turned[3] ^ turned[4] ^ 0x63) & 0xFF

        expected = [s_box(byte) for byte in range(256)]
        circuit = Netlist.from_file(DATA / "aes_sbox.txt")
        self.assertEqual(circuit.run_many([(byte,) for byte in range(256)]), expected)
        self.assertEqual(circuit.run(0x53), 0xED)
        masked = circuit.mask("12312312")
        self.assertIsNone(masked.check())
        self.assertTrue(masked.certify().is_clean)
        for masks in ((0, 0), (1, 0), (0, 1), (1, 1)):
            self.assertEqual([masked.run(byte, masks=masks) for byte in range(0, 256, 17)], expected[::17])

    def test_whole_cipher(self):
        aes = Netlist.from_file(ROOT / "circuits" / "aes_128.txt")
        masked = aes.mask(1)
        self.assertEqual(len(masked.netlist.text), 1_944_205)
        key, message = (int(it, 16) for it in ("000102030405060708090a0b0c0d0e0f", "00112233445566778899aabbccddeeff"))
        cipher = int("69c4e0d86a7b0430d8cdb78070b4c55a", 16)
        values = (key, message) if len(aes.inputs) == 2 else (key | message << 128,)
        self.assertEqual(aes.run(*values), cipher)
        self.assertEqual(masked.run(*values, masks=(1, 0)), cipher)

    def test_runs_and_leaks_of_random_netlists(self):
        chance = random.Random(1)
        for case in range(150):
            widths = [chance.randint(1, 3) for _ in range(chance.randint(1, 2))]
            bits = sum(widths)
            gates = random_gates(chance, bits + 2, chance.randint(1, 12))
            codes = [chance.randrange(4) for _ in range(bits)]
            netlist = Netlist(text_of(gates, [*widths, 2], [1]))
            self.assertEqual([(it.name, list(it.operands), it.result) for it in netlist], gates)
            leak = first_leak(gates, codes)
            self.assertEqual(netlist.check(codes), leak, case)
            self.assertEqual(netlist.check_wide(codes).leak, leak, case)
            verdict = netlist.certify(codes)
            if verdict.leak is not None:
                own, base = (counts(gates, codes, it) for it in (verdict.leak.setting, 0))
                self.assertEqual(own[verdict.leak.wire], verdict.leak.own)
            self.assertFalse(verdict.is_clean and leak is not None, case)
            settings = [[chance.randrange(2) for _ in range(bits + 2)] for _ in range(70)]
            for it in settings[:3]:
                self.assertEqual(netlist.run_bits(it), evaluate(gates, it)[-1:])
            values = [self.split(it, [*widths, 2]) for it in settings]
            self.assertEqual(netlist.run_many(values), [evaluate(gates, it)[-1:] for it in settings])

    @staticmethod
    def split(bits, widths):
        parts, at = [], 0
        for width in widths:
            parts.append(bits[at : at + width])
            at += width
        return parts

    def test_masked_random_netlists(self):
        chance = random.Random(2)
        for case in range(60):
            bits = chance.randint(1, 4)
            gates = random_gates(chance, bits, chance.randint(1, 12))
            outputs = chance.randint(1, len(gates))
            codes = [chance.randrange(4) for _ in range(bits)]
            source = Netlist(text_of(gates, [bits], [outputs]))
            masked = source.mask(codes)
            self.assertIsNone(masked.check(), case)
            twins = source.twins(codes)
            inner = [(it.name, list(it.operands), it.result) for it in masked.netlist]
            for setting in range(1 << bits):
                opened = evaluate(gates, [setting >> i & 1 for i in range(bits)])
                for masks in ((0, 0), (1, 0), (0, 1), (1, 1)):
                    hidden = evaluate(inner, masked.hide([setting], *masks))
                    self.assertEqual([hidden[it.wire] ^ mask_of(it.code, *masks) for it in twins], opened)
                    result = masked.run(setting, masks=masks)
                    self.assertEqual(result, sum(bit << i for i, bit in enumerate(opened[-outputs:])))

    def test_pairs(self):
        both = Netlist("0 3\n2 1 2\n1 1\n")
        verdict = both.check_pairs("1", [(0, 2), (0, 1)])
        self.assertEqual((verdict.leak, verdict.bad, verdict.is_clean), (None, 1, False))
        self.assertTrue(both.check_pairs("1", [(0, 2)]).is_clean)
        self.assertEqual(both.check_wide("1", [(0, 1)]).bad, 0)
        self.assertEqual(said(lambda: both.check_pairs("1", [(0, 3)])), Refusal(21))

    def test_fewest(self):
        source = Netlist("2 5\n1 3\n1 1\n2 1 0 1 3 AND\n2 1 3 2 4 XOR\n")
        few = source.mask_fewest(budget=54)
        self.assertEqual((few.input_codes, few.changes, few.floor), ((1, 2, 1), 0, 0))
        swapped = Netlist("2 5\n1 3\n1 1\n2 1 1 0 3 AND\n2 1 3 2 4 XOR\n")
        self.assertEqual(few.netlist, swapped.mask("121").netlist)
        self.assertEqual(said(lambda: source.mask_fewest(budget=0)), Refusal(22))

    def test_what_a_leak_is_made_of(self):
        chance = random.Random(5)
        leaks = 0
        for case in range(60):
            bits = chance.randint(1, 4)
            gates = random_gates(chance, bits + 2, chance.randint(1, 10))
            codes = [chance.randrange(4) for _ in range(bits)]
            netlist = Netlist(text_of(gates, [bits, 2], [1]))
            table = [counts(gates, codes, setting) for setting in range(1 << bits)]
            public = sum(1 << i for i, code in enumerate(codes) if code == 0)
            wires = range(netlist.wires)
            leaking = [w for w in wires if any(own[w] != table[s & public][w] for s, own in enumerate(table))]
            reads = {wire: ops if name != "EQ" else [] for name, ops, wire in gates}
            causes = [w for w in leaking if not set(reads.get(w, [])) & set(leaking)]
            self.assertEqual(netlist.causes(codes), (tuple(leaking), tuple(causes)), case)
            wire = chance.choice(leaking or list(wires))
            found = netlist.counts(codes, wire)
            self.assertEqual(list(found.settings), [sum(own[wire] == n for own in table) for n in range(5)])
            self.assertEqual(found.witness is not None, wire in leaking)
            if found.witness is not None:
                leaks += 1
                bad = [s for s, own in enumerate(table) if own[wire] != table[s & public][wire]]
                least = min(bad, key=lambda it: (bin(it).count("1"), it))
                base, own = table[least & public][wire], table[least][wire]
                self.assertEqual((found.witness.setting, found.witness.base, found.witness.own), (least, base, own))
            polynomial = netlist.polynomial(codes, wire)
            for setting in range(1 << bits):
                given = [setting >> i & 1 for i in range(bits)]
                for m0, m1 in ((0, 0), (1, 0), (0, 1), (1, 1)):
                    hidden = [bit ^ mask_of(code, m0, m1) for bit, code in zip(given, codes)] + [m0, m1]
                    self.assertEqual(polynomial.value(m0, m1, given), evaluate(gates, hidden)[wire])
            self.assertEqual(said(lambda: netlist.counts(codes, netlist.wires)), Refusal(21))
            self.assertEqual(said(lambda: netlist.polynomial(codes, netlist.wires)), Refusal(21))
        self.assertGreater(leaks, 20)

    def test_join(self):
        and_gate = Netlist("1 3\n2 1 1\n1 1\n2 1 0 1 2 AND\n").mask("12")
        inverter = Netlist("1 2\n1 1\n1 1\n1 1 0 1 INV\n").mask(list(and_gate.codes))
        nand = join(and_gate, inverter)
        self.assertIsNone(nand.check())
        self.assertEqual([nand.run(a, b) for a, b in ((0, 0), (0, 1), (1, 0), (1, 1))], [1, 1, 1, 0])
        other = Netlist("1 2\n1 1\n1 1\n1 1 0 1 INV\n").mask("3")
        self.assertEqual(said(lambda: join(and_gate, other)), Refusal(25))

    def test_sessions(self):
        chance = random.Random(3)
        for _ in range(20):
            codes = [chance.randrange(4) for _ in range(3)]
            session, kept = Session([2, 1], codes), []
            for _ in range(60):
                if kept and chance.random() < 0.3:
                    gone = session.undo()
                    self.assertEqual((gone.name, list(gone.operands), gone.result), kept.pop())
                else:
                    (gate,) = random_gates(chance, 3 + len(kept), 1)
                    self.assertEqual(session.add(gate[0], *gate[1]), gate[2])
                    kept.append(gate)
            if kept:
                netlist = session.netlist([1])
                self.assertEqual(netlist, Netlist(text_of(kept, [2, 1], [1])))
                masked = netlist.mask(codes)
                self.assertEqual(session.masked([1]), masked)
                front = [str(it) for it in session.masked_gates]
                self.assertEqual(front, [str(it) for it in masked.netlist][: len(front)])
                last = session.twin(session.wires - 1)
                self.assertEqual(last, netlist.twins(codes)[-1])
        self.assertEqual(said(Session([1], "1").undo), Refusal(23))
        self.assertEqual(said(lambda: Session([1], "1").add("INV", 5)), Refusal(8))


class Formats(unittest.TestCase):
    """Other notations, refusals, copies and printing."""

    def test_older_dialect(self):
        old = "1 3\n1 1 1\n\n2 1 0 1 2 AND\n"
        self.assertEqual(Netlist.from_old(old).to_old(), old)
        self.assertEqual(said(Netlist("1 2\n1 1\n1 1\n1 1 0 1 EQW\n").to_old), Refusal(15))

    def test_circuits_in_verilog_and_aiger(self):
        folder = ROOT / "bindings" / "rust" / "tests"
        for name in ("present_sbox", "aes_sbox"):
            circuit = Netlist.from_file(DATA / f"{name}.txt")
            settings = [(value,) for value in range(1 << circuit.input_bits)]
            for made in (
                Netlist.from_verilog((folder / "verilog" / f"{name}.v").read_text()),
                Netlist.from_aiger((folder / "aiger" / "yosys" / f"{name}.aag").read_text()),
            ):
                self.assertEqual(made.run_many(settings), circuit.run_many(settings))

    def test_refusals(self):
        cases = {
            "1 3.": 3,
            "1 3\n": 4,
            "1 1000000\n1 1\n1 1\n": 4,
            "2 3\n2 1 1\n1 1\n2 1 0 1 2 AND\n": 6,
            "1 3\n2 1 1\n1 1\n2 1 0 1 2 OR\n": 7,
            "1 3\n2 1 1\n1 1\n2 1 0 2 2 AND\n": 8,
            "1 3\n2 1 1\n1 1\n2 1 0 1 1 AND\n": 9,
        }
        for text, number in cases.items():
            self.assertEqual(said(lambda it=text: Netlist(it)), Refusal(number), text)
        self.assertEqual(said(lambda: Netlist.from_verilog("module")), Refusal(16))
        self.assertEqual(said(lambda: Netlist.from_aiger("aag 1 1 1 1 0\n")), Refusal(20))
        and_gate = Netlist("1 3\n2 1 1\n1 1\n2 1 0 1 2 AND\n")
        self.assertEqual(said(lambda: and_gate.mask("14")), Refusal(11))
        self.assertEqual(said(lambda: and_gate.mask("12", "4")), Refusal(13))
        self.assertEqual(said(lambda: and_gate.check("1")), Refusal(10))
        self.assertEqual(said(lambda: and_gate.run_bits([1])), Refusal(11))
        self.assertEqual(said(lambda: and_gate.run([1], [2])), Refusal(11))
        with self.assertRaises(ValueError):
            and_gate.run(2, 0)

    def test_places(self):
        refusal = said(lambda: Netlist("1 3\n\n2 1 1\n1 1\n2 1 0 2 2 AND\n"))
        self.assertEqual((refusal, refusal.number), (Refusal(8), 8))
        if refusal.line is not None:
            self.assertEqual((refusal.line, refusal.column), (5, 7))
            self.assertTrue(str(refusal).startswith("refused 8 in line 5, column 7: "))
        copy = pickle.loads(pickle.dumps(Refusal(8, 5, 7)))
        self.assertEqual((copy, copy.line, copy.column), (Refusal(8), 5, 7))

    def test_pickles(self):
        netlist = Netlist.from_file(DATA / "present_sbox.txt")
        masked = netlist.mask("1231")
        session = Session([2], "12")
        session.add("AND", 0, 1)
        results = (masked.check(), masked.certify(), netlist.twins(1), next(iter(netlist)))
        for it in (netlist, masked, *results, Refusal(4)):
            self.assertEqual(pickle.loads(pickle.dumps(it)), it)
        copy = pickle.loads(pickle.dumps(session))
        self.assertEqual((copy.gates, copy.masked_gates), (session.gates, session.masked_gates))
        self.assertEqual(copy.add("INV", 2), 3)

    def test_prints(self):
        and_gate = Netlist("1 3\n2  1 1\n\n1 1\n2 1 0 1 2 AND")
        self.assertEqual(str(and_gate), "1 3\n2 1 1\n1 1\n\n2 1 0 1 2 AND\n")
        self.assertEqual(repr(and_gate), "<Netlist: 1 gate, 3 wires, inputs 1 1, outputs 1>")
        self.assertEqual(str(Refusal(23)), "refused 23: there is no gate to take off")
        self.assertEqual(len({and_gate, Netlist(and_gate.text)}), 1)

    def test_threads(self):
        netlist, results = Netlist.from_file(DATA / "aes_sbox.txt"), []
        expected = netlist.mask(1)

        def work():
            results.append(all(netlist.mask(1) == expected and netlist.run(0x53) == 0xED for _ in range(20)))

        threads = [threading.Thread(target=work) for _ in range(4)]
        for it in threads:
            it.start()
        for it in threads:
            it.join()
        self.assertEqual(results, [True] * 4)


class Second(unittest.TestCase):
    """Every call beside the plain C implementation."""

    @classmethod
    def setUpClass(cls):
        cls.other = second_library()

    def same(self, call):
        first = said(call)
        with through(self.other):
            self.assertEqual(said(call), first)
        return first

    def test_random_calls(self):
        chance = random.Random(4)
        refused = 0
        for _ in range(400):
            bits = chance.randint(1, 8)
            gates = random_gates(chance, bits, chance.randint(1, 30))
            codes = [chance.randrange(4) for _ in range(bits + (chance.random() < 0.1))]
            text = text_of(gates, [bits], [chance.randint(1, len(gates))])
            if chance.random() < 0.3:
                at = chance.randrange(len(text))
                text = text[:at] + chance.choice("0123 \nAX.") + text[at + 1 :]
            netlist = self.same(lambda: Netlist(text))
            if isinstance(netlist, Refusal):
                refused += 1
                continue
            wanted = [chance.randrange(5) for _ in range(netlist.output_bits)]
            for it in (wanted, 0):
                masked = self.same(lambda: netlist.mask(codes, it))
                if isinstance(masked, Masked):
                    text = masked.netlist.text
                    self.same(masked.check)
                    self.same(masked.certify)
                    lines = text.split("\n")
                    at = chance.randrange(4, len(lines) - 1)
                    broken = lines[at].replace("AND", "XOR") if "AND" in lines[at] else lines[at].replace("XOR", "AND")
                    other = Netlist("\n".join([*lines[:at], broken, *lines[at + 1 :]]))
                    given = masked.input_codes
                    self.same(lambda: other.check(given))
                    self.same(lambda: other.check_wide(given))
                    pairs = [(chance.randrange(other.wires + 1), chance.randrange(other.wires)) for _ in range(3)]
                    self.same(lambda: other.check_pairs(given, pairs))
                    self.same(lambda: other.check_wide(given, pairs))
                else:
                    refused += 1
            self.same(lambda: netlist.twins(codes))
            budget = chance.randint(0, 200)
            self.same(lambda: netlist.mask_fewest([4] * netlist.input_bits, 0, budget))
            self.same(netlist.to_old)
            setting = [chance.randrange(2) for _ in range(netlist.input_bits)]
            self.same(lambda: netlist.run_bits(setting))
        self.assertGreater(refused, 50)

    def test_circuits(self):
        for path in sorted(DATA.glob("*_sbox.txt")):
            netlist = Netlist.from_file(path)
            masked = self.same(lambda: netlist.mask(1))
            self.same(masked.certify)
            self.same(lambda: netlist.mask_fewest(budget=500))
            with through(self.other):
                self.assertEqual(Netlist(masked.netlist.text), masked.netlist)
        for path in sorted((ROOT / "bindings" / "rust" / "tests" / "verilog").glob("*.v")):
            self.same(lambda: Netlist.from_verilog(path.read_text()))
        for path in sorted((ROOT / "bindings" / "rust" / "tests" / "aiger").glob("*/*.aag")):
            self.same(lambda: Netlist.from_aiger(path.read_text()))

    def test_tables_are_zero_on_return(self):
        lib = found.library()
        netlist = Netlist.from_file(DATA / "present_sbox.txt")
        netlist.mask(1).check()
        for (name, kind, entries), table in lib._kept.tables.items():
            if name in ("operands", "results", "marks", "words", "base"):
                self.assertEqual(bytes(memoryview(table).cast("B")), bytes(ctypes.sizeof(table)), name)


if __name__ == "__main__":
    unittest.main()
