"""Masks netlists of one-bit gates under two mask bits, and says whether a netlist leaks on a wire.

Every service is a call of the proved library libfidrovelj.so. A call that is refused raises `Refusal`, which has the
number of the first question that was answered no, and its words.

>>> from fidrovelj import Netlist
>>> masked = Netlist("1 3\\n2 1 1\\n1 1\\n2 1 0 1 2 AND\\n").mask("12")
>>> masked.netlist
<Netlist: 11 gates, 15 wires, inputs 1 1 2, outputs 1>
>>> print(masked.certify())
clean
>>> Netlist("1 3\\n")  # doctest: +ELLIPSIS
Traceback (most recent call last):
fidrovelj.refusals.Refusal: refused 4...: the header lines have not the stated form
"""

from .library import Sizes
from .netlist import (
    Certified,
    Counts,
    Fewest,
    Gate,
    Leak,
    Masked,
    Netlist,
    PairsVerdict,
    Polynomial,
    Twin,
    join,
    mask_of,
)
from .refusals import WORDS, Refusal
from .session import Session

__version__ = "1.0.0"
__all__ = [
    "Certified",
    "Counts",
    "Fewest",
    "Gate",
    "Leak",
    "Masked",
    "Netlist",
    "PairsVerdict",
    "Polynomial",
    "Refusal",
    "Session",
    "Sizes",
    "Twin",
    "WORDS",
    "join",
    "mask_of",
]
