"""Netlists, and what the services say of them."""

from __future__ import annotations

import secrets
from dataclasses import dataclass
from os import PathLike
from pathlib import Path
from typing import Callable, FrozenSet, Iterable, Iterator, List, Optional, Sequence, Tuple, Union, overload

from .library import U8, U32, U64, Sizes, array, front, library
from .refusals import Refusal

Text = Union[str, bytes]
Codes = Union[int, str, Sequence[int]]
Bits = Sequence[int]

NAMES = {1: "XOR", 2: "AND", 3: "INV", 4: "EQW", 5: "EQ"}
MASKS = {0: "public", 1: "m0", 2: "m1", 3: "m0 and m1"}


@dataclass(frozen=True)
class Gate:
    """A gate: its name (XOR, AND, INV, EQW, EQ), its operands (of EQ the constant), and its result wire.

    >>> print(Gate("AND", (0, 1), 2))
    2 1 0 1 2 AND
    """

    name: str
    operands: Tuple[int, ...]
    result: int

    def __str__(self) -> str:
        return " ".join(map(str, (len(self.operands), 1, *self.operands, self.result, self.name)))


@dataclass(frozen=True)
class Leak:
    """A wire that leaks: it is one for `own` of the four mask settings in the setting whose input bits `ones` are one,
    and for `base` in the setting with the same public bits and zero secrets."""

    wire: int
    ones: Tuple[int, ...]
    base: int
    own: int

    @property
    def setting(self) -> int:
        """The setting as a number, input bit 0 the lowest."""
        return sum(1 << bit for bit in self.ones)

    def __str__(self) -> str:
        bits = " ".join(map(str, self.ones))
        return (
            f"leak: wire {self.wire} is one for {self.own} of the four mask settings where of the input bits "
            f"{bits} alone are one, and for {self.base} where the secret ones are zero"
        )


@dataclass(frozen=True)
class PairsVerdict:
    """What a check with pairs says: the leak on one wire, and the place of the first bad pair in the list, if any."""

    leak: Optional[Leak]
    bad: Optional[int]

    @property
    def is_clean(self) -> bool:
        """Whether every wire and every listed pair is clean."""
        return self.leak is None and self.bad is None

    def __str__(self) -> str:
        wires = "every wire is clean" if self.leak is None else str(self.leak)
        return wires + ("; every pair is clean" if self.bad is None else f"; pair {self.bad} is bad")


@dataclass(frozen=True)
class Certified:
    """What Certify says: clean, a leak, or not decided from wire `unknown` on."""

    leak: Optional[Leak] = None
    unknown: Optional[int] = None

    @property
    def is_clean(self) -> bool:
        """Whether every wire was shown to be clean."""
        return self.leak is None and self.unknown is None

    def __str__(self) -> str:
        if self.leak is not None:
            return str(self.leak)
        if self.unknown is None:
            return "clean"
        return f"not decided: wire {self.unknown} is the first not known to be clean"


@dataclass(frozen=True)
class Counts:
    """How many settings make a wire one under 0, 1, 2, 3 and 4 of the four mask settings; and where the wire leaks, a
    setting with the fewest ones that shows it."""

    settings: Tuple[int, ...]
    witness: Optional[Leak]


@dataclass(frozen=True)
class Polynomial:
    """A wire as a sum of products: each product is a set of names, m0 and m1 for the mask bits and x0, x1, .. for the
    input bits before they are masked. The empty product is the constant 1.

    >>> print(Polynomial(frozenset({frozenset({"m0"}), frozenset({"x0", "x1"})})))
    m0 + x0 x1
    """

    products: FrozenSet[FrozenSet[str]]

    def __str__(self) -> str:
        listed = [sorted(it, key=_name_order) for it in self.products]
        listed.sort(key=lambda it: (len(it), [_name_order(name) for name in it]))
        return " + ".join(" ".join(it) or "1" for it in listed) or "0"

    def value(self, m0: int, m1: int, bits: Sequence[int]) -> int:
        """Its value for the mask bits and the input bits."""
        named = {"m0": m0, "m1": m1, **{f"x{place}": bit for place, bit in enumerate(bits)}}
        return sum(all(named[it] for it in product) for product in self.products) % 2


def _name_order(name: str) -> Tuple[str, int]:
    return (name[0], int(name[1:]))


@dataclass(frozen=True)
class Twin:
    """Where a source wire stands in the masked netlist: `wire` is its bit XOR the mask of `code`."""

    wire: int
    code: int


def code_list(codes: Codes, bits: int) -> bytes:
    """Codes of so many bits: one number for all of them, a string of digits, or a list.

    >>> list(code_list(1, 3)), list(code_list("012", 3)), list(code_list([3, 1], 2))
    ([1, 1, 1], [0, 1, 2], [3, 1])
    """
    if isinstance(codes, int):
        return bytes([codes]) * bits
    if isinstance(codes, str):
        return bytes(int(digit) for digit in codes)
    return bytes(codes)


def pair_list(pairs: Iterable[Tuple[int, int]]) -> List[int]:
    """The wires of pairs, one after another."""
    return [wire for pair in pairs for wire in pair]


def spread(number: int, width: int) -> List[int]:
    """The bits of a number, the lowest first. Raises `ValueError` where it has more.

    >>> spread(0x53, 8)
    [1, 1, 0, 0, 1, 0, 1, 0]
    """
    if number < 0 or number >> width:
        raise ValueError(f"{number} is not a number of {width} bits")
    return [number >> place & 1 for place in range(width)]


def gather(bits: Sequence[int]) -> int:
    """The number of these bits, the lowest first."""
    return sum(bit << place for place, bit in enumerate(bits))


class Netlist:
    """A netlist of one-bit gates (docs/RULES.md, Header and gate lines), read once and never changed.

    It prints as its written form, compares and hashes by it, and pickles.

    >>> and_gate = Netlist("1 3\\n2 1 1\\n1 1\\n2 1 0 1 2 AND\\n")
    >>> and_gate
    <Netlist: 1 gate, 3 wires, inputs 1 1, outputs 1>
    >>> and_gate.run(1, 1)
    1
    >>> masked = and_gate.mask("12")
    >>> masked.codes, masked.check() is None
    ((1,), True)
    """

    __slots__ = ("_text", "_inputs", "_outputs", "_wires")

    def __init__(self, text: Text) -> None:
        """Reads a text in Bristol Fashion. Raises `Refusal` 2 to 9."""
        self._text = _written("rewrite", _bytes(text))
        header = self._text.split(b"\n", 3)
        self._wires = int(header[0].split()[1])
        self._inputs = tuple(map(int, header[1].split()[1:]))
        self._outputs = tuple(map(int, header[2].split()[1:]))

    @classmethod
    def from_file(cls, path: Union[str, "PathLike[str]"]) -> "Netlist":
        """The netlist of a file in Bristol Fashion."""
        return cls(Path(path).read_bytes())

    @classmethod
    def from_old(cls, text: Text) -> "Netlist":
        """The netlist of a text in the older dialect (docs/RULES.md, Older dialect).

        >>> print(Netlist.from_old("1 3\\n1 1 1\\n2 1 0 1 2 AND\\n").inputs)
        (1, 1)
        """
        return cls(_written("from_old", _bytes(text)))

    @classmethod
    def from_aiger(cls, text: Text) -> "Netlist":
        """The netlist of an ASCII AIGER file (docs/RULES.md, AIGER).

        >>> either = Netlist.from_aiger("aag 3 2 0 1 1\\n2\\n4\\n7\\n6 5 3\\n")
        >>> either.run_many([(0,), (1,), (2,), (3,)])
        [0, 1, 1, 1]
        """
        return cls(_made("from_aiger", _bytes(text)))

    @classmethod
    def from_verilog(cls, text: Text) -> "Netlist":
        """The netlist of equations (docs/RULES.md, Equations).

        >>> either = "module m(a, b, y); input a, b; output y; assign y = ~(~a & ~b); endmodule"
        >>> Netlist.from_verilog(either).run_bits([0, 1])
        [1]
        """
        return cls(_made("from_verilog", _bytes(text)))

    @property
    def text(self) -> str:
        """The written form (docs/RULES.md, Written form)."""
        return self._text.decode()

    @property
    def wires(self) -> int:
        """How many wires it has."""
        return self._wires

    @property
    def inputs(self) -> Tuple[int, ...]:
        """The widths of its input values."""
        return self._inputs

    @property
    def outputs(self) -> Tuple[int, ...]:
        """The widths of its output values, whose bits are the last wires."""
        return self._outputs

    @property
    def input_bits(self) -> int:
        """How many input bits it has: they are its first wires."""
        return sum(self._inputs)

    @property
    def output_bits(self) -> int:
        """How many output bits it has."""
        return sum(self._outputs)

    def __len__(self) -> int:
        """How many gates it has."""
        return self._wires - self.input_bits

    def __iter__(self) -> Iterator[Gate]:
        """Its gates, in order."""
        for line in self._text.split(b"\n")[4:]:
            words = line.split()
            if words:
                numbers = tuple(map(int, words[2:-1]))
                yield Gate(words[-1].decode(), numbers[:-1], numbers[-1])

    def __str__(self) -> str:
        return self.text

    def __repr__(self) -> str:
        gates = "1 gate" if len(self) == 1 else f"{len(self)} gates"
        widths = [" ".join(map(str, it)) for it in (self._inputs, self._outputs)]
        return f"<Netlist: {gates}, {self._wires} wires, inputs {widths[0]}, outputs {widths[1]}>"

    def __eq__(self, other: object) -> bool:
        return isinstance(other, Netlist) and self._text == other._text

    def __hash__(self) -> int:
        return hash(self._text)

    def __reduce__(self) -> Tuple[type, Tuple[bytes]]:
        return (Netlist, (self._text,))

    def to_file(self, path: Union[str, "PathLike[str]"]) -> None:
        """Writes its written form to a file."""
        Path(path).write_bytes(self._text)

    def to_old(self) -> str:
        """Its text in the older dialect (docs/RULES.md, Older dialect). Raises `Refusal` 15."""
        return _written("to_old", self._text).decode()

    def _source_sizes(self) -> Sizes:
        """The sizes of a call that takes it as a source."""
        small = Sizes.STANDARD
        fits = self._wires <= small.source_wires and len(self._text) <= small.source_text
        return small if fits else Sizes.WHOLE

    def _masked_sizes(self) -> Sizes:
        """The sizes of a call that checks, runs or joins it."""
        small = Sizes.STANDARD
        fits = self._wires <= small.masked_wires and len(self._text) <= small.masked_text
        return small if fits else Sizes.WHOLE

    # Running (docs/RULES.md, Running)

    def run_bits(self, bits: Bits) -> List[int]:
        """The output bits for a list of input bits, each 0 or 1. Raises `Refusal` 11 for other lists."""
        lib, sizes = library(), self._masked_sizes()
        entries = sizes.masked_wires
        out = lib.table("out_bits", U8, entries)
        tables = [*lib.tables("operands results", U64, entries), lib.table("marks", U8, entries)]
        words = lib.table("words", U64, entries)
        count = lib.call("run", self._text, bytes(bits), out, *tables, words, sizes)
        return list(out[:count])

    def run_words(self, words: Sequence[int]) -> List[int]:
        """The output words for a word of 64 bits for each input bit; bit j of each word belongs to setting j."""
        lib, sizes = library(), self._masked_sizes()
        entries = sizes.masked_wires
        out = lib.table("out_words", U64, entries)
        tables = [*lib.tables("operands results", U64, entries), lib.table("marks", U8, entries)]
        values = lib.table("words", U64, entries)
        count = lib.call("run64", self._text, array(U64, words), out, *tables, values, sizes)
        return list(out[:count])

    @overload
    def run(self, *values: int) -> Union[int, Tuple[int, ...]]: ...

    @overload
    def run(self, *values: Bits) -> Union[List[int], Tuple[List[int], ...]]: ...

    def run(self, *values):  # type: ignore[no-untyped-def]
        """The output values for the input values, each given as a number or as a list of bits, the lowest first. One
        output value comes alone, several as a tuple; they are lists where all input values are.

        >>> half = Netlist("2 4\\n2 1 1\\n2 1 1\\n2 1 0 1 2 XOR\\n2 1 0 1 3 AND\\n")
        >>> half.run(1, 1), half.run([1], [0])
        ((0, 1), ([1], [0]))
        """
        return self.run_many([values])[0]

    def run_many(self, settings: Iterable[Sequence[Union[int, Bits]]]) -> List:
        """What `run` gives for each of these settings, sixty-four in a pass.

        >>> Netlist("1 2\\n1 1\\n1 1\\n1 1 0 1 INV\\n").run_many([(0,), (1,)])
        [1, 0]
        """
        given = [tuple(it) for it in settings]
        lists = [self._bits_of(it) for it in given]
        results: List = []
        for start in range(0, len(given), 64):
            block = lists[start : start + 64]
            if len(block) == 1:
                columns = [self.run_bits(block[0])]
            else:
                words = [sum(bits[wire] << j for j, bits in enumerate(block)) for wire in range(self.input_bits)]
                made = self.run_words(words)
                columns = [[word >> j & 1 for word in made] for j in range(len(block))]
            for values, bits in zip(given[start : start + 64], columns):
                results.append(self._values_of(bits, all(not isinstance(it, int) for it in values)))
        return results

    def _bits_of(self, values: Sequence[Union[int, Bits]]) -> List[int]:
        if len(values) != len(self._inputs):
            raise ValueError(f"{len(self._inputs)} input values are asked for, and {len(values)} given")
        bits: List[int] = []
        for value, width in zip(values, self._inputs):
            part = spread(value, width) if isinstance(value, int) else [int(bit) for bit in value]
            if len(part) != width or any(bit not in (0, 1) for bit in part):
                raise Refusal(11)
            bits += part
        return bits

    def _values_of(self, bits: Sequence[int], as_lists: bool) -> object:
        values, at = [], 0
        for width in self._outputs:
            part = list(bits[at : at + width])
            values.append(part if as_lists else gather(part))
            at += width
        return values[0] if len(values) == 1 else tuple(values)

    # Masking (docs/RULES.md, Masking a source, Twins, Fewest changes)

    def mask(self, codes: Codes, wanted: Codes = 0) -> "Masked":
        """The masked netlist, for a mask code for each input bit: 1 travels XOR m0, 2 XOR m1, 3 XOR both, 0 is public.
        `wanted` has for each output bit the code that it is to travel with, or 0 where any will do. Codes are one
        number for all, a string of digits or a list. Raises `Refusal` 11 or 13 for other codes, and 2 or 5 where it is
        too large."""
        lib, sizes = library(), self._source_sizes()
        input_codes, asked = code_list(codes, self.input_bits), code_list(wanted, self.output_bits)
        out, entries = lib.table("text", U8, sizes.masked_text), sizes.source_wires
        out_codes = lib.table("out_codes", U8, max(len(asked), 1))
        tables = [*lib.tables("operands results", U64, entries), lib.table("wires", U32, entries)]
        marks = lib.table("marks", U8, entries)
        length = lib.call("mask", self._text, input_codes, asked, out, out_codes, *tables, marks, sizes)
        return Masked(Netlist(front(out, length)), tuple(input_codes), tuple(out_codes[: len(asked)]))

    def mask_fewest(self, codes: Codes = 4, wanted: Codes = 0, budget: int = 4_096) -> "Fewest":
        """The masked netlist with the fewest mask changes among as many choices as the budget allows; an input bit with
        code 4 is free. Raises `Refusal` 22 for a budget of 0."""
        lib, sizes = library(), self._source_sizes()
        free, asked = code_list(codes, self.input_bits), code_list(wanted, self.output_bits)
        out, entries = lib.table("text", U8, sizes.masked_text), sizes.source_wires
        in_codes, out_codes, tally = (U8 * max(len(free), 1))(), (U8 * max(len(asked), 1))(), (U64 * 2)()
        tables = [*lib.tables("operands results", U64, entries), lib.table("wires", U32, entries)]
        tables += [*lib.tables("marks ways best", U8, entries), lib.table("spans", U64, entries)]
        length = lib.call(
            "mask_fewest", self._text, free, asked, budget, out, in_codes, out_codes, tally, *tables, sizes
        )
        masked = Netlist(front(out, length))
        return Fewest(masked, tuple(in_codes[: len(free)]), tuple(out_codes[: len(asked)]), tally[0], tally[1])

    def twins(self, codes: Codes) -> List[Twin]:
        """Where each source wire stands in the netlist that `mask` gives for these codes.

        >>> Netlist("1 2\\n1 1\\n1 1\\n1 1 0 1 INV\\n").twins("3")
        [Twin(wire=0, code=3), Twin(wire=6, code=3)]
        """
        lib, sizes = library(), self._source_sizes()
        entries = sizes.source_wires
        wires, out_codes = lib.table("wires", U32, entries), lib.table("out_codes", U8, entries)
        tables = [*lib.tables("operands results", U64, entries), lib.table("marks", U8, entries)]
        given = code_list(codes, self.input_bits)
        count = lib.call("twins", self._text, given, wires, out_codes, *tables, sizes)
        return [Twin(wire, code) for wire, code in zip(wires[:count], out_codes[:count])]

    # Checking (docs/RULES.md, Leaks, Pairs, Many inputs, Certify)

    @property
    def _secret_bits(self) -> int:
        """Its input bits without the mask pair."""
        return sum(self._inputs[:-1])

    def _tables_of_a_check(self, sizes: Sizes, words: str) -> List:
        lib, entries = library(), sizes.masked_wires
        return [
            *lib.tables("operands results", U64, entries),
            lib.table("marks", U8, entries),
            *lib.tables(words, U64, entries),
        ]

    def check(self, codes: Codes) -> Optional[Leak]:
        """The leak with the lowest wire and the smallest setting, or None where every wire is clean, over all settings
        of at most twelve bits. Raises `Refusal` 10 without a mask pair, 11 for other codes, 12 for more bits.

        >>> Netlist("1 4\\n2 1 2\\n1 1\\n2 1 0 1 3 XOR\\n").check("1")
        Leak(wire=3, ones=(0,), base=0, own=4)
        """
        sizes, leak = self._masked_sizes(), (U64 * 4)()
        tables = self._tables_of_a_check(sizes, "words base")
        given = code_list(codes, self._secret_bits)
        if not library().call("check", self._text, given, leak, *tables, sizes):
            return None
        wire, setting, base, own = leak
        return Leak(wire, tuple(bit for bit in range(12) if setting >> bit & 1), base, own)

    def check_pairs(self, codes: Codes, pairs: Iterable[Tuple[int, int]]) -> PairsVerdict:
        """What `check` says, and besides whether listed pairs of wires leak together, as a register shows them that
        holds one after the other. Raises `Refusal` 21 for a pair that names no wire."""
        sizes, leak, bad = self._masked_sizes(), (U64 * 4)(), (U64 * 1)()
        tables = self._tables_of_a_check(sizes, "words base bases")
        wires = array(U32, pair_list(pairs))
        given = code_list(codes, self._secret_bits)
        answer = library().call("check_pairs", self._text, given, wires, leak, bad, *tables, sizes)
        wire, setting, base, own = leak
        ones = tuple(bit for bit in range(12) if setting >> bit & 1)
        return PairsVerdict(Leak(wire, ones, base, own) if answer & 1 else None, bad[0] if answer & 2 else None)

    def check_wide(self, codes: Codes, pairs: Iterable[Tuple[int, int]] = ()) -> PairsVerdict:
        """What `check_pairs` says, of any number of input bits, as long as at most twelve reach each wire and each
        listed pair. Raises `Refusal` 12 otherwise."""
        sizes, leak, ones, bad = self._masked_sizes(), (U64 * 4)(), (U64 * 12)(), (U64 * 1)()
        tables = self._tables_of_a_check(sizes, "words base bases set0 set1 set2 set3")
        paints = library().table("paints", U8, sizes.masked_wires)
        wires = array(U32, pair_list(pairs))
        given = code_list(codes, self._secret_bits)
        answer = library().call("check_wide", self._text, given, wires, leak, ones, bad, *tables, paints, sizes)
        wire, count, base, own = leak
        found = Leak(wire, tuple(ones[:count]), base, own) if answer & 1 else None
        return PairsVerdict(found, bad[0] if answer & 2 else None)

    # What a leak is made of

    def causes(self, codes: Codes) -> Tuple[Tuple[int, ...], Tuple[int, ...]]:
        """The wires that leak, and those of them that are causes: no operand of their gate leaks. Questions as `check`.

        >>> Netlist("2 5\\n2 1 2\\n1 1\\n2 1 0 1 3 XOR\\n1 1 3 4 INV\\n").causes("1")
        ((3, 4), (3,))
        """
        sizes = self._masked_sizes()
        out = library().table("out_bits", U8, sizes.masked_wires)
        tables = self._tables_of_a_check(sizes, "words base")
        given = code_list(codes, self._secret_bits)
        verdicts = front(out, library().call("explain_wires", self._text, given, out, *tables, sizes))
        leaking = tuple(wire for wire, verdict in enumerate(verdicts) if verdict)
        return leaking, tuple(wire for wire in leaking if verdicts[wire] == 2)

    def polynomial(self, codes: Codes, wire: int) -> Polynomial:
        """A wire as a sum of products of mask bits and input bits, where each input bit comes in XOR its mask.
        Questions as `check`; raises `Refusal` 21 for a wire that is not there.

        >>> print(Netlist("1 4\\n2 1 2\\n1 1\\n2 1 0 1 3 AND\\n").polynomial("1", 3))
        m0 + m0 x0
        """
        sizes, given = self._masked_sizes(), code_list(codes, self._secret_bits)
        out = library().table("coefficients", U8, 4 << 12)
        tables = self._tables_of_a_check(sizes, "words")
        length = library().call("polynomial", self._text, given, wire, out, *tables, sizes)
        names = ["m0", "m1", *(f"x{place}" for place in range(len(given)))]
        products = (
            frozenset(name for place, name in enumerate(names) if entry >> place & 1)
            for entry, is_there in enumerate(front(out, length))
            if is_there
        )
        return Polynomial(frozenset(products))

    def counts(self, codes: Codes, wire: int) -> Counts:
        """How many settings have each count on a wire, and where it leaks a setting with the fewest ones that shows it.
        Questions as `check`; raises `Refusal` 21 for a wire that is not there.

        >>> Netlist("1 4\\n2 1 2\\n1 1\\n2 1 0 1 3 XOR\\n").counts("1", 3)
        Counts(settings=(1, 0, 0, 0, 1), witness=Leak(wire=3, ones=(0,), base=0, own=4))
        """
        sizes, given, out = self._masked_sizes(), code_list(codes, self._secret_bits), (U64 * 8)()
        tables = self._tables_of_a_check(sizes, "words")
        bases = library().table("count_bases", U8, sizes.masked_wires)
        length = library().call("counts", self._text, given, wire, out, *tables, bases, sizes)
        if length == 5:
            return Counts(tuple(out[:5]), None)
        setting, base, own = out[5:8]
        ones = tuple(bit for bit in range(12) if setting >> bit & 1)
        return Counts(tuple(out[:5]), Leak(wire, ones, base, own))

    def certify(self, codes: Codes) -> Certified:
        """Whether every wire is clean, for any number of input bits: clean, a leak, or not decided."""
        sizes, leak = self._masked_sizes(), (U64 * 4)()
        given = code_list(codes, self._secret_bits)
        ones = (U64 * max(len(given), 1))()
        tables = self._tables_of_a_check(sizes, "words base")
        records = library().table("records", U64, 15 * sizes.masked_wires)
        answer = library().call("certify", self._text, given, leak, ones, *tables, records, sizes)
        wire, count, base, own = leak
        if answer == 1:
            return Certified(leak=Leak(wire, tuple(ones[:count]), base, own))
        return Certified(unknown=wire) if answer == 2 else Certified()


@dataclass(frozen=True)
class Masked:
    """A masked netlist, with the mask code of each input bit that it was made for and of each output bit.

    Its netlist has the source's input values and one more of width 2, the mask bits m0 and m1.
    """

    netlist: Netlist
    input_codes: Tuple[int, ...]
    codes: Tuple[int, ...]

    def check(self) -> Optional[Leak]:
        """`Netlist.check` with its own codes."""
        return self.netlist.check(self.input_codes)

    def certify(self) -> Certified:
        """`Netlist.certify` with its own codes."""
        return self.netlist.certify(self.input_codes)

    def hide(self, values: Sequence[int], m0: int, m1: int) -> List[int]:
        """The input bits of the masked netlist for these values of the source: each XOR its mask, then m0 and m1."""
        widths = self.netlist.inputs[:-1]
        if len(values) != len(widths):
            raise ValueError(f"{len(widths)} input values are asked for, and {len(values)} given")
        bits = [bit for value, width in zip(values, widths) for bit in spread(value, width)]
        return [bit ^ mask_of(code, m0, m1) for bit, code in zip(bits, self.input_codes)] + [m0, m1]

    def show(self, bits: Sequence[int], m0: int, m1: int) -> Union[int, Tuple[int, ...]]:
        """The source's output values of the masked netlist's output bits: each XOR its mask."""
        clear = [bit ^ mask_of(code, m0, m1) for bit, code in zip(bits, self.codes)]
        return self.netlist._values_of(clear, False)  # type: ignore[return-value]

    def run(self, *values: int, masks: Optional[Tuple[int, int]] = None) -> Union[int, Tuple[int, ...]]:
        """The source's output values, run under the mask bits m0 and m1; two fresh random ones where none are given.

        >>> Netlist("1 3\\n2 1 1\\n1 1\\n2 1 0 1 2 AND\\n").mask("12").run(1, 1)
        1
        """
        m0, m1 = masks if masks is not None else (secrets.randbelow(2), secrets.randbelow(2))
        return self.show(self.netlist.run_bits(self.hide(values, m0, m1)), m0, m1)


@dataclass(frozen=True)
class Fewest(Masked):
    """A masked netlist with the fewest changes found, how many they are, and a floor that no choice goes below."""

    changes: int
    floor: int


def mask_of(code: int, m0: int, m1: int) -> int:
    """The mask of a code: 0 none, 1 m0, 2 m1, 3 both."""
    return (0, m0, m1, m0 ^ m1)[code]


def join(first: Masked, second: Masked) -> Masked:
    """Two masked blocks over the same mask bits as one netlist, the outputs of the first going into the inputs of the
    second (docs/RULES.md, Joining). Raises `Refusal` 25 where they do not fit."""
    lib = library()
    sizes = max(first.netlist._masked_sizes(), second.netlist._masked_sizes())
    if first.netlist.wires + second.netlist.wires > sizes.masked_wires + second.netlist.input_bits:
        sizes = Sizes.WHOLE
    if len(first.netlist._text) + len(second.netlist._text) > sizes.masked_text:
        sizes = Sizes.WHOLE
    out = lib.table("text", U8, sizes.masked_text)
    entries = sizes.masked_wires
    tables = [*lib.tables("operands results", U64, entries), lib.table("marks", U8, entries)]
    tables += lib.tables("words base", U64, entries)
    length = lib.call(
        "join",
        first.netlist._text,
        second.netlist._text,
        bytes(first.input_codes),
        bytes(first.codes),
        bytes(second.input_codes),
        out,
        *tables,
        sizes,
    )
    return Masked(Netlist(front(out, length)), first.input_codes, second.codes)


def _bytes(text: Text) -> bytes:
    return text.encode("latin-1", "replace") if isinstance(text, str) else bytes(text)


def _written(name: str, text: bytes) -> bytes:
    """A conversion, under the standard limits, and under those for whole ciphers where these are passed."""
    lib = library()

    def under(sizes: Sizes) -> bytes:
        out, entries = lib.table("text", U8, sizes.masked_text), sizes.masked_wires
        tables = [*lib.tables("operands results", U64, entries), lib.table("marks", U8, entries)]
        try:
            return front(out, lib.call(name, text, out, *tables, sizes))
        except Refusal as refusal:
            raise (lib.placed(refusal, text, sizes) if name == "rewrite" else refusal) from None

    return _in_sizes(under, (2, 5))


def _made(name: str, text: bytes) -> bytes:
    """A netlist of another notation, under the standard limits, or under those for whole ciphers where these are
    passed."""
    lib = library()

    def under(sizes: Sizes) -> bytes:
        out, entries = lib.table("text", U8, sizes.masked_text), sizes.source_wires
        tables = lib.tables("operands results", U64, entries)
        if name == "from_aiger":
            tables.append(lib.table("variables", U32, entries))
        else:
            tables += lib.tables("heads words links", U64, 8 * entries) + lib.tables("states wires", U32, 8 * entries)
        return front(out, lib.call(name, text, out, *tables, sizes))

    return _in_sizes(under, (2, 5, 19))


def _in_sizes(under: Callable[[Sizes], bytes], limits: Tuple[int, ...]) -> bytes:
    """What a call gives under the standard limits; where one of these questions refuses it, under those for whole
    ciphers."""
    try:
        return under(Sizes.STANDARD)
    except Refusal as refusal:
        if refusal.number not in limits:
            raise
    return under(Sizes.WHOLE)
