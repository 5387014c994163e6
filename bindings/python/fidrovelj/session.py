"""Sessions: a source netlist that grows gate by gate, masked at every moment (docs/RULES.md, Sessions)."""

from __future__ import annotations

from typing import Any, List, Sequence, Tuple

from .library import U8, U32, U64, GateRecord, Sizes, SourceRecord, array, front, library
from .netlist import NAMES, Codes, Gate, Masked, Netlist, Twin, code_list

NUMBERS = {name: number for number, name in NAMES.items()}


def _gate(record: Any) -> Gate:
    name = NAMES[record.kind]
    both = name in ("XOR", "AND")
    return Gate(name, (record.first, record.second) if both else (record.first,), record.result)


def _grown(kind: Any, entries: Any, least: int) -> Any:
    """A list of at least so many entries, with those that are there at its front."""
    if len(entries) >= least:
        return entries
    longer = (kind * max(least, 2 * len(entries)))()
    longer[: len(entries)] = entries[:]
    return longer


class Session:
    """A source netlist in the making: a gate is added at the end, or the last one taken off, and its masked gates lie
    beside it.

    >>> session = Session([1, 1], "12")
    >>> wire = session.add("AND", 0, 1)
    >>> wire, session.twin(wire)
    (2, Twin(wire=13, code=1))
    >>> session.add("XOR", wire, wire)
    3
    >>> print(session.undo())
    2 1 2 2 3 XOR
    >>> session.netlist([1])
    <Netlist: 1 gate, 3 wires, inputs 1 1, outputs 1>
    """

    def __init__(self, widths: Sequence[int], codes: Codes, sizes: Sizes = Sizes.STANDARD) -> None:
        """Opens a session without gates, with input values of these widths and a mask code for each input bit. Raises
        `Refusal` 4, 5 or 11."""
        self._widths, self._sizes = array(U32, widths), sizes
        self._codes = code_list(codes, sum(widths))
        self._source = (SourceRecord * 16)()
        self._masked = (GateRecord * (3 + len(self._codes) + 16))()
        self._state = library().step("session_open", self._widths, self._codes, self._masked, sizes)

    @property
    def wires(self) -> int:
        """How many wires there are: the input bits and the gates."""
        return len(self._codes) + self._state.gates

    def __len__(self) -> int:
        """How many gates there are."""
        return int(self._state.gates)

    def __repr__(self) -> str:
        return f"<Session: {len(self)} gates, {self.wires} wires, {self._state.masked} masked gates>"

    @property
    def gates(self) -> List[Gate]:
        """The source gates."""
        return [_gate(it) for it in self._source[: len(self)]]

    @property
    def masked_gates(self) -> List[Gate]:
        """The masked gates, before the copies of the output bits."""
        return [_gate(it) for it in self._masked[: self._state.masked]]

    def twin(self, wire: int) -> Twin:
        """Where the result of a gate stands in the masked netlist."""
        if not len(self._codes) <= wire < self.wires:
            raise IndexError(f"wire {wire} is no gate's result")
        record = self._source[wire - len(self._codes)]
        return Twin(record.wire, record.code)

    def add(self, name: str, *operands: int) -> int:
        """Adds a gate XOR, AND, INV, EQW or EQ at the end: the number of its wire, which is the next. Raises `Refusal`
        8 for an operand that is no wire yet, 7 for another form, 24 where there is no wire left."""
        if name not in NUMBERS:
            raise ValueError(f"{name} is none of {', '.join(NUMBERS)}")
        if len(operands) != (2 if name in ("XOR", "AND") else 1):
            raise ValueError(f"{name} has {2 if name in ('XOR', 'AND') else 1} operands")
        result, second = self.wires, operands[1] if len(operands) > 1 else 0
        self._source = _grown(SourceRecord, self._source, len(self) + 1)
        self._masked = _grown(GateRecord, self._masked, self._state.masked + 8)
        gate = GateRecord(NUMBERS[name], operands[0], second, result)
        arguments = (self._codes, self._source, self._masked, self._sizes)
        self._state = library().step("session_add", self._state, gate, *arguments)
        return result

    def undo(self) -> Gate:
        """Takes the last gate off, and gives it. Raises `Refusal` 23 where there is none."""
        last = self.gates[-1:]
        self._state = library().step("session_take_off", self._state, self._source)
        return last[0]

    def netlist(self, outputs: Sequence[int]) -> Netlist:
        """The netlist, with output values of these widths: their bits are the last wires. Raises `Refusal` 4 or 5."""
        lib, entries = library(), self._sizes.source_wires
        out = lib.table("text", U8, self._sizes.masked_text)
        tables = lib.tables("operands results", U64, entries)
        widths = array(U32, outputs)
        arguments = (self._state, self._widths, widths, self._source, out, *tables, self._sizes)
        return Netlist(front(out, lib.call("session_text", *arguments)))

    def masked(self, outputs: Sequence[int], wanted: Codes = 0) -> Masked:
        """What `Netlist.mask` gives for that netlist and the session's codes."""
        lib, entries = library(), self._sizes.source_wires
        out, asked = lib.table("text", U8, self._sizes.masked_text), code_list(wanted, sum(outputs))
        out_codes = (U8 * max(len(asked), 1))()
        tables = [*lib.tables("operands results", U64, entries), lib.table("wires", U32, entries)]
        tables.append(lib.table("marks", U8, entries))
        given: Tuple[Any, ...] = (self._state, self._widths, array(U32, outputs), self._source, self._codes, asked)
        length = lib.call("session_masked", *given, out, out_codes, *tables, self._sizes)
        return Masked(Netlist(front(out, length)), tuple(self._codes), tuple(out_codes[: len(asked)]))

    def __getstate__(self) -> Tuple[List[int], bytes, int, List[Gate]]:
        return (list(self._widths), self._codes, int(self._sizes), self.gates)

    def __setstate__(self, kept: Tuple[List[int], bytes, int, List[Gate]]) -> None:
        widths, codes, sizes, gates = kept
        self.__init__(widths, list(codes), Sizes(sizes))  # type: ignore[misc]
        for gate in gates:
            self.add(gate.name, *gate.operands)
