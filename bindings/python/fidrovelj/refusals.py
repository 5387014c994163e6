"""Refusals: the first question of a call that is answered no (docs/RULES.md, Questions)."""

from __future__ import annotations

from typing import Dict, Optional, Tuple

WORDS: Dict[int, str] = {
    1: "a working table is too short",
    2: "the text is too long",
    3: "a byte that no text has",
    4: "the header lines have not the stated form",
    5: "too many wires or values, or more bits than wires",
    6: "the gate count is not the wires less the input bits, or not the number of gate lines",
    7: "the line is none of the five gates",
    8: "an operand is neither an input nor the result of an earlier line",
    9: "the result wire is an input, above the last wire or given twice",
    10: "the last input value is not the two mask bits",
    11: "the input list has not one entry in range for each input bit",
    12: "more than twelve input bits to try",
    13: "the wanted list has not one entry in range for each output bit",
    14: "a result buffer is too short",
    15: "the older dialect has no form for this netlist",
    16: "the text is not of the subset of Verilog that is read",
    17: "a name is undeclared, declared twice, or read or assigned where it may not be",
    18: "parentheses are nested deeper than 32",
    19: "the text is not an ASCII AIGER file, or too large",
    20: "the AIGER file has latches",
    21: "the list of pairs is of odd length or names a wire that is not there",
    22: "the budget is 0",
    23: "there is no gate to take off",
    24: "there is no place for another gate",
    25: "the blocks do not fit at the seam",
    26: "the state is none of this netlist's search for fewer changes",
    27: "no wire is given to judge, or one that is not there",
}
"""What each refusal says, by its number."""


class Refusal(ValueError):
    """A call was refused, by the number of the first question that was answered no. Of a text in Bristol Fashion it has
    the line and the column of the first refused place, from 1, where the library tells it.

    >>> refusal = Refusal(4)
    >>> refusal.number
    4
    >>> print(refusal)
    refused 4: the header lines have not the stated form
    >>> print(Refusal(8, 4, 7))
    refused 8 in line 4, column 7: an operand is neither an input nor the result of an earlier line
    """

    def __init__(self, number: int, line: Optional[int] = None, column: Optional[int] = None) -> None:
        super().__init__(number, line, column)
        self.number, self.line, self.column = number, line, column

    @property
    def words(self) -> str:
        """What is wrong, in words."""
        return WORDS.get(self.number, "a question without a name")

    def __str__(self) -> str:
        place = "" if self.line is None else f" in line {self.line}, column {self.column}"
        return f"refused {self.number}{place}: {self.words}"

    def __reduce__(self) -> Tuple[type, Tuple[int, Optional[int], Optional[int]]]:
        return (Refusal, (self.number, self.line, self.column))

    def __eq__(self, other: object) -> bool:
        return isinstance(other, Refusal) and self.number == other.number

    def __hash__(self) -> int:
        return hash(self.number)
