"""The shared library: where it is found, its functions, and the tables that are lent to them."""

from __future__ import annotations

import ctypes
import ctypes.util
import enum
import os
import threading
from pathlib import Path
from typing import Any, Dict, List, Sequence

from .refusals import Refusal


class Sizes(enum.IntEnum):
    """Which limits a call takes (docs/RULES.md, Sizes)."""

    STANDARD = 0
    """2,048 wires and 60,000 bytes of a source; 18,431 and 500,000 of a masked netlist."""
    WHOLE = 1
    """100,000 and 3,000,000 of a source; 899,999 and 27,000,000 of a masked netlist: whole ciphers."""

    @property
    def source_wires(self) -> int:
        """The most wires of a source: as many entries has each table of the calls that take one."""
        return (2_048, 100_000)[self]

    @property
    def masked_wires(self) -> int:
        """The most wires of a netlist that is checked, run, converted or joined."""
        return (18_431, 899_999)[self]

    @property
    def source_text(self) -> int:
        """The most bytes of a source's text."""
        return (60_000, 3_000_000)[self]

    @property
    def masked_text(self) -> int:
        """The most bytes of any text that is taken or written."""
        return (500_000, 27_000_000)[self]


class GateRecord(ctypes.Structure):
    """A gate of a session: a kind, the operands and the result wire."""

    _fields_ = [(name, ctypes.c_uint32) for name in ("kind", "first", "second", "result")]


class SourceRecord(ctypes.Structure):
    """A source gate of a session, and where its result stands in the masked netlist."""

    _fields_ = [
        *GateRecord._fields_,
        ("wire", ctypes.c_uint32),
        ("place", ctypes.c_uint32),
        ("code", ctypes.c_uint8),
    ]


class State(ctypes.Structure):
    """How many source gates and masked gates stand at the front of a session's lists."""

    _fields_ = [("gates", ctypes.c_uint32), ("masked", ctypes.c_uint32)]


class Step(ctypes.Structure):
    """What a step of a session answers: the session after it, and 0 or the question that refuses it."""

    _fields_ = [("session", State), ("refused", ctypes.c_uint8)]


class PlaceAnswer(ctypes.Structure):
    """The first refused place of a text: the question that refuses it, or 0, and where."""

    _fields_ = [
        *((name, ctypes.c_size_t) for name in ("offset", "line", "column", "entry", "word")),
        ("have", ctypes.c_uint64),
        ("most", ctypes.c_uint64),
        ("refused", ctypes.c_uint8),
    ]


# The parameters of each function, in order: slices, but for the budget, a wire, a session and a gate. All but the last end
# with the choice of sizes; the last three give a step's answer, the others a number.
SERVICES: Dict[str, str] = {
    "rewrite": "text out operands results marks",
    "from_old": "text out operands results marks",
    "to_old": "text out operands results marks",
    "run": "text list out operands results marks words",
    "run64": "text list out operands results marks words",
    "mask": "text codes wanted out out_codes operands results wires marks",
    "mask_fewest": "text codes wanted budget out in_codes out_codes tally operands results wires marks ways best spans",
    "twins": "text codes out_wires out_codes operands results marks",
    "check": "text codes leak operands results marks words base",
    "check_pairs": "text codes pairs leak bad operands results marks words base bases",
    "check_wide": "text codes pairs leak ones bad operands results marks words base bases set0 set1 set2 set3 paints",
    "certify": "text codes leak ones operands results marks words base records",
    "explain_wires": "text codes out operands results marks words base",
    "polynomial": "text codes wire out operands results marks words",
    "counts": "text codes wire out operands results bits words bases",
    "from_aiger": "text out operands results variables",
    "join": "first second first_codes first_out_codes second_codes out operands results marks words base",
    "from_verilog": "text out operands results heads words links states wires",
    "session_text": "session inputs outputs source out operands results",
    "session_masked": "session inputs outputs source codes wanted out out_codes operands results wires marks",
    "session_open": "widths codes masked",
    "session_add": "session gate codes source masked",
    "session_take_off": "session source",
}


def _parameters(name: str) -> List[Any]:
    kinds: List[Any] = []
    for word in SERVICES[name].split():
        if word == "session":
            kinds.append(State)
        elif word == "gate":
            kinds.append(GateRecord)
        elif word == "budget":
            kinds.append(ctypes.c_uint64)
        elif word == "wire":
            kinds.append(ctypes.c_size_t)
        else:
            kinds += [ctypes.c_void_p, ctypes.c_size_t]
    return kinds if name == "session_take_off" else kinds + [ctypes.c_uint8]


def _places() -> List[str]:
    here = Path(__file__).resolve().parent
    named = os.environ.get("FIDROVELJ_SHARED")
    if named:
        return [named]
    found = [here / "libfidrovelj.so", here.parents[2] / "target" / "lib" / "libfidrovelj.so"]
    system = ctypes.util.find_library("fidrovelj")
    return [str(it) for it in found if it.is_file()] + [system] * bool(system)


class Library:
    """The functions of one shared library, and the tables that a thread lends to them.

    Tables are made where they are first needed and kept for further calls, those of each thread apart, so calls of
    several threads may run at the same time.
    """

    def __init__(self, path: str) -> None:
        self.path = path
        self._functions: Dict[str, Any] = {}
        self._kept = threading.local()
        library = ctypes.CDLL(path)
        for name in SERVICES:
            function = getattr(library, f"fidrovelj_{name}", None)
            if function is None:
                continue
            function.argtypes = _parameters(name)
            is_step = name in ("session_open", "session_add", "session_take_off")
            function.restype = Step if is_step else ctypes.c_int64
            self._functions[name] = function
        self._place = getattr(library, "fidrovelj_place", None)
        if self._place is not None:
            slices = [ctypes.c_void_p, ctypes.c_size_t] * 2
            self._place.argtypes, self._place.restype = [*slices, ctypes.c_uint8, ctypes.c_uint8], PlaceAnswer

    def placed(self, refusal: Refusal, text: bytes, sizes: Sizes) -> Refusal:
        """The refusal of a text in Bristol Fashion, with its place."""
        if self._place is None:
            return refusal
        marks = self.table("marks", ctypes.c_uint8, sizes.masked_wires)
        place = self._place(text, len(text), marks, len(marks), 1, sizes)
        if place.refused != refusal.number or not place.line:
            return refusal
        return Refusal(refusal.number, place.line, place.column)

    def table(self, name: str, kind: Any, entries: int) -> Any:
        """A table of so many entries, the same one for each call that asks for it by this name."""
        tables = self._kept.__dict__.setdefault("tables", {})
        key = (name, kind, entries)
        if key not in tables:
            tables[key] = (kind * entries)()
        return tables[key]

    def tables(self, names: str, kind: Any, entries: int) -> List[Any]:
        """Tables of these names, all of one kind and length."""
        return [self.table(name, kind, entries) for name in names.split()]

    def call(self, name: str, *arguments: Any) -> int:
        """Calls a service: each slice as bytes or an array, numbers and structs by value. Raises what refuses it."""
        if name not in self._functions:
            raise NotImplementedError(f"{self.path} has no fidrovelj_{name}: it is of another version")
        answer = self._functions[name](*_flat(arguments))
        if answer < 0:
            raise Refusal(-answer)
        return int(answer)

    def step(self, name: str, *arguments: Any) -> State:
        """A step of a session: the session after it. Raises what refuses it."""
        answer = self._functions[name](*_flat(arguments))
        if answer.refused:
            raise Refusal(answer.refused)
        return State(answer.session.gates, answer.session.masked)


def _flat(arguments: Sequence[Any]) -> List[Any]:
    flat: List[Any] = []
    for it in arguments:
        flat += [it, len(it)] if isinstance(it, (bytes, ctypes.Array)) else [it]
    return flat


def array(kind: Any, entries: Sequence[int]) -> Any:
    """An array of these entries."""
    return (kind * len(entries))(*entries)


def front(table: Any, length: int) -> bytes:
    """So many bytes from the front of a table."""
    return ctypes.string_at(table, length)


_loaded: List[Library] = []


def library() -> Library:
    """The shared library: the one that FIDROVELJ_SHARED names, the package's, the repository's or the system's."""
    if not _loaded:
        places = _places()
        if not places:
            raise ImportError(
                "libfidrovelj.so is missing: run ./build library at the top of the repository, "
                "or name one in FIDROVELJ_SHARED"
            )
        _loaded.append(Library(places[0]))
    return _loaded[0]


U8, U32, U64 = ctypes.c_uint8, ctypes.c_uint32, ctypes.c_uint64
