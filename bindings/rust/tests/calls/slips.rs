//! Calls at places where the order of questions or a detail of the rules is easily missed, with
//! the outcomes worked out by hand.

use super::known::{clean, leak, masked, row, Row, AND};
use super::Service::{Check, Mask, Rewrite, Run, Run64};
use super::{Call, Given, Service};

/// Refusals of every service alike: what is read, and the question's number.
const READING: &[(&str, &str, u8)] = &[
    ("a bad last byte comes before a broken header", "X\n1 1 1\n#", 3),
    ("CR for LF", "1 3\r2 1 1\r\n1 1\r\n2 1 0 1 2 AND\r\n", 3),
    ("CR as the last byte", "1 3\n2 1 1\n1 1\n2 1 0 1 2 AND\r", 3),
    ("CR CR LF", "1 3\n2 1 1\r\r\n1 1\n2 1 0 1 2 AND\n", 3),
    ("a space between CR and LF", "1 3\n2 1 1\r \n1 1\n2 1 0 1 2 AND\n", 3),
    ("LF CR", "1 3\n\r2 1 1\n1 1\n2 1 0 1 2 AND\n", 3),
    ("CR in a name", "1 3\r\n2 1 1\r\n1 1\r\n2 1 0 1 2 A\rND\r\n", 3),
    ("CR between words", "1 3\r\n2 1 1\r\n1 1\r\n2 1 0\r1 2 AND\r\n", 3),
    ("a CR alone comes before a broken header", "X\r\r\n", 3),
    ("nothing but CR LFs", "\r\n  \r\n", 4),
    ("a name cut short by CR LF", "1 3\r\n2 1 1\r\n1 1\r\n2 1 0 1 2 AN\r\n", 7),
    ("tab", "1\t3\n2 1 1\n1 1\n2 1 0 1 2 AND\n", 3),
    ("the byte before 0", "1 3\n2 1 1\n1 1\n2 1 / 1 2 AND\n", 3),
    ("the byte after 9", "1 3\n2 1 1\n1 1\n2 1 : 1 2 AND\n", 3),
    ("the byte before A", "1 3\n2 1 1\n1 1\n2 1 0 1 2 @ND\n", 3),
    ("the byte after Z", "1 3\n2 1 1\n1 1\n2 1 0 1 2 [ND\n", 3),
    ("lower case", "1 3\n2 1 1\n1 1\n2 1 0 1 2 and\n", 3),
    ("a backquote", "1 3\n2 1 1\n1 1\n2 1 0 1 2 `ND\n", 3),
    ("NUL", "1 3\n2 1 1\n1 1\n2 1 0 1 2 AND\n\0", 3),
    ("nothing but blank lines", "\n  \n\n ", 4),
    ("two header lines", "0 1\n1 1\n", 4),
    ("a capital in the header", "1 Z\n2 1 1\n1 1\n2 1 0 1 2 AND\n", 4),
    ("line one of one number", "1\n2 1 1\n1 1\n2 1 0 1 2 AND\n", 4),
    ("line one of three numbers", "1 3 3\n2 1 1\n1 1\n2 1 0 1 2 AND\n", 4),
    ("a leading zero in the header", "01 3\n2 1 1\n1 1\n2 1 0 1 2 AND\n", 4),
    ("seven digits in the header", "1 1000000\n2 1 1\n1 1\n2 1 0 1 2 AND\n", 4),
    ("no input value", "0 1\n0\n1 1\n", 4),
    ("no output value", "0 1\n1 1\n0\n", 4),
    ("an input of width 0", "1 3\n2 2 0\n1 1\n2 1 0 1 2 AND\n", 4),
    ("an output of width 0", "1 3\n2 1 1\n1 0\n2 1 0 1 2 AND\n", 4),
    ("fewer widths than stated", "1 3\n3 1 1\n1 1\n2 1 0 1 2 AND\n", 4),
    ("more widths than stated", "1 3\n1 1 1\n1 1\n2 1 0 1 2 AND\n", 4),
    ("a bad line three comes before too many wires", "0 99999\n1 1\n0\n", 4),
    ("a width of 0 comes before too many values", "1 99\n18 1 1 1 1 1 1 1 1 1 1 1 1 1 1 1 1 1 0\n1 1\n", 4),
    ("17 widths of 18", "1 99\n18 1 1 1 1 1 1 1 1 1 1 1 1 1 1 1 1 1\n1 1\n", 4),
    ("19 widths of 18", "1 99\n18 1 1 1 1 1 1 1 1 1 1 1 1 1 1 1 1 1 1 1\n1 1\n", 4),
    ("18 input values", "0 18\n18 1 1 1 1 1 1 1 1 1 1 1 1 1 1 1 1 1 1\n1 1\n", 5),
    ("17 output values", "0 17\n1 17\n17 1 1 1 1 1 1 1 1 1 1 1 1 1 1 1 1 1\n", 5),
    ("the most wires of six digits", "0 999999\n1 1\n1 1\n", 5),
    ("a width of six digits", "0 1\n1 999999\n1 1\n", 5),
    ("no wire", "0 0\n1 1\n1 1\n", 5),
    ("more input bits than wires", "0 2\n2 1 2\n1 1\n", 5),
    ("more output bits than wires", "0 2\n1 2\n2 2 1\n", 5),
    ("a sum of widths that is 1 in 16 bits", "0 1\n2 65535 2\n1 1\n", 5),
    ("a sum of output widths that is 1 in 16 bits", "0 1\n1 1\n2 65535 2\n", 5),
    ("too many wires come before a wrong gate count", "5 99999\n1 1\n1 1\nX\n", 5),
    ("a gate count too high", "2 3\n2 1 1\n1 1\n2 1 0 1 2 AND\n", 6),
    ("a gate count too low", "0 3\n2 1 1\n1 1\n2 1 0 1 2 AND\n", 6),
    ("a gate count above the wires", "999999 3\n2 1 1\n1 1\n2 1 0 1 2 AND\n", 6),
    ("gate lines as many as stated, and not W less n", "1 4\n2 1 1\n1 1\n2 1 0 1 2 AND\n", 6),
    ("a surplus line", "1 3\n2 1 1\n1 1\n2 1 0 1 2 AND\nRUBBISH\n", 6),
    ("a missing line", "1 3\n2 1 1\n1 1\n", 6),
    ("a surplus line comes before a bad one", "1 3\n2 1 1\n1 1\nX\nX\n", 6),
    ("a gate in two lines", "1 3\n2 1 1\n1 1\n2 1 0 1\n2 AND\n", 6),
    ("two gates in one line", "2 4\n2 1 1\n1 1\n2 1 0 1 2 AND 2 1 0 1 3 AND\n\n", 6),
    ("an unknown gate", "1 3\n2 1 1\n1 1\n2 1 0 1 2 Z\n", 7),
    ("a name cut short", "1 3\n2 1 1\n1 1\n2 1 0 1 2 XO\n", 7),
    ("a name and more", "1 3\n2 1 1\n1 1\n2 1 0 1 2 XORX\n", 7),
    ("a name behind a digit", "1 3\n2 1 1\n1 1\n2 1 0 1 2XOR\n", 7),
    ("EQ and more", "1 3\n2 1 1\n1 1\n1 1 0 2 EQX\n", 7),
    ("EQW and more", "1 3\n2 1 1\n1 1\n1 1 0 2 EQWW\n", 7),
    ("AND of one operand", "1 3\n2 1 1\n1 1\n1 1 0 2 AND\n", 7),
    ("INV of two operands", "1 3\n2 1 1\n1 1\n2 1 0 1 2 INV\n", 7),
    ("a word behind the name", "1 3\n2 1 1\n1 1\n2 1 0 1 2 AND 2\n", 7),
    ("a leading zero in front", "1 3\n2 1 1\n1 1\n02 1 0 1 2 AND\n", 7),
    ("a leading zero in the second word", "1 3\n2 1 1\n1 1\n2 01 0 1 2 AND\n", 7),
    ("an operand with a leading zero", "1 3\n2 1 1\n1 1\n2 1 00 1 2 AND\n", 7),
    ("a result with a leading zero", "1 3\n2 1 1\n1 1\n2 1 0 1 02 AND\n", 7),
    ("seven digits", "1 3\n2 1 1\n1 1\n2 1 0 1000000 2 AND\n", 7),
    ("a number that is 0 in 32 bits", "1 3\n2 1 1\n1 1\n2 1 4294967296 1 2 AND\n", 7),
    ("a number that is 0 in 64 bits", "1 3\n2 1 1\n1 1\n2 1 18446744073709551616 1 2 AND\n", 7),
    ("a letter for a constant", "1 3\n2 1 1\n1 1\n1 1 A 2 EQ\n", 7),
    ("a constant with a leading zero", "1 3\n2 1 1\n1 1\n1 1 01 2 EQ\n", 7),
    ("a bad form comes before a bad result two lines on", "2 4\n2 1 1\n1 1\nX\n2 1 0 1 0 AND\n", 7),
    ("six digits are a number", "1 3\n2 1 1\n1 1\n2 1 999999 1 2 AND\n", 8),
    ("a constant of 2", "1 3\n2 1 1\n1 1\n1 1 2 2 EQ\n", 8),
    ("a constant of six digits", "1 3\n2 1 1\n1 1\n1 1 100000 2 EQ\n", 8),
    ("a gate that reads its own result", "1 3\n2 1 1\n1 1\n2 1 0 2 2 AND\n", 8),
    ("a gate that reads a later result", "2 4\n2 1 1\n1 1\n2 1 0 3 2 AND\n2 1 0 1 3 AND\n", 8),
    ("a gate that reads a wire past the last", "1 3\n2 1 1\n1 1\n1 1 3 2 INV\n", 8),
    ("an operand comes before a result", "1 3\n2 1 1\n1 1\n2 1 0 5 0 AND\n", 8),
    ("a bad constant comes before a bad result", "1 3\n2 1 1\n1 1\n1 1 2 0 EQ\n", 8),
    ("a result that is an input", "1 3\n2 1 1\n1 1\n2 1 0 1 1 AND\n", 9),
    ("a result past the last wire", "1 3\n2 1 1\n1 1\n2 1 0 1 3 AND\n", 9),
    ("a result of six digits", "1 3\n2 1 1\n1 1\n2 1 0 1 999999 AND\n", 9),
    ("a result given twice", "2 4\n2 1 1\n1 1\n2 1 0 1 3 AND\n2 1 0 1 3 XOR\n", 9),
    ("a bad result comes before a bad form on the next line", "2 4\n2 1 1\n1 1\n2 1 0 1 1 AND\nX\n", 9),
];

/// Texts that Rewrite gives in another layout.
const REWRITTEN: &[(&str, &str, &str)] = &[
    ("no gate", "0 2\n1 2\n1 2", "0 2\n1 2\n1 2\n\n"),
    (
        "blank lines anywhere",
        "\n \n1 3\n\n2 1 1\n  \n1 1\n\n\n2 1 0 1 2 AND\n\n  ",
        "1 3\n2 1 1\n1 1\n\n2 1 0 1 2 AND\n",
    ),
    ("spaces anywhere", "  1   3 \n2 1  1\n 1 1\n2  1 0  1 2 AND   ", "1 3\n2 1 1\n1 1\n\n2 1 0 1 2 AND\n"),
    (
        "results that do not rise",
        "2 4\n1 2\n1 1\n1 1 0 3 INV\n1 1 3 2 EQW\n",
        "2 4\n1 2\n1 1\n\n1 1 0 3 INV\n1 1 3 2 EQW\n",
    ),
    ("operands in the order given", "1 3\n1 2\n1 1\n\n2 1 1 0 2 XOR", "1 3\n1 2\n1 1\n\n2 1 1 0 2 XOR\n"),
    ("constants", "2 3\n1 1\n1 3\n1 1 0 2 EQ\n1 1 1 1 EQ\n", "2 3\n1 1\n1 3\n\n1 1 0 2 EQ\n1 1 1 1 EQ\n"),
    ("CR LF", "1 3\r\n2 1 1\r\n1 1\r\n2 1 0 1 2 AND\r\n", "1 3\n2 1 1\n1 1\n\n2 1 0 1 2 AND\n"),
    (
        "CR LF and LF, behind spaces and on blank lines",
        "\r\n \r\n1 3 \r\n2 1 1\n\r\n1 1\r\n2 1 0 1 2 AND  \r\n ",
        "1 3\n2 1 1\n1 1\n\n2 1 0 1 2 AND\n",
    ),
    (
        "17 input values",
        "0 17\n17 1 1 1 1 1 1 1 1 1 1 1 1 1 1 1 1 1\n1 17\n",
        "0 17\n17 1 1 1 1 1 1 1 1 1 1 1 1 1 1 1 1 1\n1 17\n\n",
    ),
];

const TWICE: &str = "2 3\n1 1\n1 1\n2 1 0 0 1 XOR\n2 1 0 0 2 XOR\n";
const TWICE_MASKED: &str = "8 11\n2 1 2\n1 1\n
2 1 1 2 3 XOR\n2 1 1 2 4 AND\n2 1 3 4 5 XOR
2 1 0 2 6 XOR\n2 1 0 6 7 XOR\n2 1 0 2 8 XOR\n2 1 0 8 9 XOR\n1 1 9 10 EQW\n";

const FALLING: &str = "2 4\n1 2\n1 1\n1 1 0 3 INV\n1 1 3 2 EQW\n";
const FALLING_MASKED: &str = "6 10\n2 2 2\n1 1\n
2 1 2 3 4 XOR\n2 1 2 3 5 AND\n2 1 4 5 6 XOR\n1 1 0 7 INV\n1 1 7 8 EQW\n1 1 7 9 EQW\n";

const CONSTANTS: &str = "2 3\n1 1\n1 2\n1 1 0 1 EQ\n1 1 1 2 EQ\n";
const CONSTANTS_MASKED: &str = "7 10\n2 1 2\n1 2\n
2 1 1 2 3 XOR\n2 1 1 2 4 AND\n2 1 3 4 5 XOR\n1 1 1 6 EQW\n1 1 1 7 INV\n2 1 6 2 8 XOR\n2 1 7 3 9 XOR\n";

const INPUT_OUT_MASKED: &str = "4 7\n2 1 2\n1 1\n
2 1 1 2 3 XOR\n2 1 1 2 4 AND\n2 1 3 4 5 XOR\n2 1 0 3 6 XOR\n";

/// A square of a wire with code 3: the change adds m0, so the second operand has code 2.
const SQUARE: &str = "1 2\n1 1\n1 1\n2 1 0 0 1 AND\n";
const SQUARE_MASKED: &str = "12 15\n2 1 2\n1 1\n
2 1 1 2 3 XOR\n2 1 1 2 4 AND\n2 1 3 4 5 XOR\n2 1 0 1 6 XOR
2 1 0 6 7 AND\n2 1 0 2 8 AND\n2 1 8 2 9 XOR\n2 1 7 9 10 XOR\n2 1 3 6 11 AND\n2 1 11 5 12 XOR\n2 1 10 12 13 XOR
1 1 13 14 EQW\n";

/// A public bit that an AND reads beside a secret one, one that nothing reads, and one that is put out.
const PUBLIC_MASKED: &str = "12 16\n3 1 1 2\n1 1\n
2 1 2 3 4 XOR\n2 1 2 3 5 AND\n2 1 4 5 6 XOR\n2 1 0 2 7 XOR
2 1 7 1 8 AND\n2 1 7 3 9 AND\n2 1 9 3 10 XOR\n2 1 8 10 11 XOR\n2 1 2 1 12 AND\n2 1 12 6 13 XOR\n2 1 11 13 14 XOR
1 1 14 15 EQW\n";
const UNREAD_MASKED: &str = "6 10\n2 2 2\n1 1\n
2 1 2 3 4 XOR\n2 1 2 3 5 AND\n2 1 4 5 6 XOR\n2 1 1 2 7 XOR\n1 1 0 8 INV\n1 1 8 9 EQW\n";
const PUBLIC_OUT_MASKED: &str = "6 10\n2 2 2\n1 2\n
2 1 2 3 4 XOR\n2 1 2 3 5 AND\n2 1 4 5 6 XOR\n2 1 0 2 7 XOR\n1 1 7 8 EQW\n2 1 1 4 9 XOR\n";

/// Calls of Mask and their results.
fn masking() -> Vec<Row> {
    let mask = |text: &str, codes: &[u8], wanted: &[u8]| Call::new(Mask, text.as_bytes(), codes, wanted);
    vec![
        row("a mask change is not remembered", mask(TWICE, &[1], &[0]), masked(TWICE_MASKED, &[2])),
        row("gates in text order", mask(FALLING, &[3, 1], &[0]), masked(FALLING_MASKED, &[3])),
        row(
            "constants, and both changed outputs",
            mask(CONSTANTS, &[2], &[3, 2]),
            masked(CONSTANTS_MASKED, &[3, 2]),
        ),
        row(
            "an output that is an input",
            mask("0 1\n1 1\n1 1\n", &[2], &[1]),
            masked(INPUT_OUT_MASKED, &[1]),
        ),
        row("AND of a wire with itself", mask(SQUARE, &[3], &[0]), masked(SQUARE_MASKED, &[3])),
        row("17 input values", mask(REWRITTEN[8].1, &[1; 17], &[0; 17]), Err(5)),
        row("a public bit beside a secret one", mask(AND, &[0, 2], &[0]), masked(PUBLIC_MASKED, &[1])),
        row(
            "a public bit that nothing reads",
            mask("1 3\n1 2\n1 1\n1 1 0 2 INV\n", &[1, 0], &[0]),
            masked(UNREAD_MASKED, &[1]),
        ),
        row(
            "a public bit that is put out",
            mask("0 2\n1 2\n1 2\n", &[0, 2], &[1, 1]),
            masked(PUBLIC_OUT_MASKED, &[1, 1]),
        ),
        row("a code of 4", mask(AND, &[1, 4], &[0]), Err(11)),
        row("a code of 255", mask(AND, &[255, 1], &[0]), Err(11)),
        row("a code too many", mask(AND, &[1, 2, 3], &[0]), Err(11)),
        row("a code too few", mask(AND, &[1], &[0]), Err(11)),
        row("codes come before wanted codes", mask(AND, &[1, 4], &[4]), Err(11)),
        row("a wanted code of 4", mask(AND, &[1, 2], &[4]), Err(13)),
        row("a wanted code of 255", mask(AND, &[1, 2], &[255]), Err(13)),
        row("no wanted code", mask(AND, &[1, 2], &[]), Err(13)),
        row("wanted codes come before rooms", Call { text_room: 0, ..mask(AND, &[1, 2], &[4]) }, Err(13)),
        row("no room for the text", Call { text_room: 0, ..mask(AND, &[1, 2], &[0]) }, Err(14)),
        row("no room for the codes", Call { list_room: 0, ..mask(AND, &[1, 2], &[0]) }, Err(14)),
    ]
}

/// Calls of Check and their answers.
fn checking() -> Vec<Row> {
    let check = |text: &str, codes: &[u8]| Call::new(Check, text.as_bytes(), codes, &[]);
    let falling = "2 5\n2 1 2\n1 1\n2 1 0 1 4 XOR\n1 1 4 3 EQW\n";
    let second_value = "1 5\n3 1 1 2\n1 1\n2 1 1 2 4 XOR\n";
    let late = "2 7\n2 3 2\n1 1\n2 1 2 3 5 XOR\n2 1 1 4 6 XOR\n";
    let product = "1 5\n2 2 2\n1 1\n2 1 0 1 4 AND\n";
    // The last wire has count 2 where the public bit is 0; where it is 1, the wire is the secret.
    let mixed = "2 6\n2 2 2\n1 1\n2 1 0 1 4 AND\n2 1 4 2 5 XOR\n";
    vec![
        row("the lowest wire, not the first gate", check(falling, &[1]), leak([3, 1, 0, 4])),
        row("input bits count over all values", check(second_value, &[1, 1]), leak([4, 2, 0, 4])),
        row("the lowest wire, not the smallest setting", check(late, &[1, 2, 1]), leak([5, 4, 0, 4])),
        row("two masks on a wire", check(late, &[1, 1, 2]), clean()),
        row("an AND under one mask", check(product, &[1, 1]), leak([4, 1, 2, 0])),
        row("an AND under two masks", check(product, &[1, 2]), clean()),
        row("a constant", check("1 4\n2 1 2\n1 1\n1 1 1 3 EQ\n", &[1]), clean()),
        row("one input value", check("0 3\n1 3\n1 1\n", &[1]), Err(10)),
        row("one input value of width 2", check("0 2\n1 2\n1 1\n", &[]), Err(10)),
        row("a last value of width 1", check("0 3\n2 2 1\n1 1\n", &[1]), Err(10)),
        row("no mask pair comes before a wrong list", check("0 3\n2 2 1\n1 1\n", &[9, 9, 9]), Err(10)),
        row("a code for the mask pair too", check("0 3\n2 1 2\n1 1\n", &[1, 1, 1]), Err(11)),
        row("no code", check("0 3\n2 1 2\n1 1\n", &[]), Err(11)),
        row("a public bit", check("0 3\n2 1 2\n1 1\n", &[0]), clean()),
        row("a public bit read openly", check("1 4\n2 1 2\n1 1\n1 1 0 3 INV\n", &[0]), clean()),
        row("a public bit mixed with a secret", check(mixed, &[0, 1]), leak([5, 3, 0, 4])),
        row("the same of two secrets", check(mixed, &[1, 1]), leak([4, 1, 2, 0])),
        row("twelve public bits", check("0 14\n2 12 2\n1 1\n", &[0; 12]), clean()),
        row("thirteen public bits", check("0 15\n2 13 2\n1 1\n", &[0; 13]), Err(12)),
        row("a code of 4", check("0 3\n2 1 2\n1 1\n", &[4]), Err(11)),
        row("a wrong list comes before thirteen bits", check("0 15\n2 13 2\n1 1\n", &[1; 12]), Err(11)),
        row("thirteen bits in two values", check("0 15\n3 6 7 2\n1 1\n", &[1; 13]), Err(12)),
        row("thousands of bits", check("0 18431\n2 18429 2\n1 1\n", &[1; 18_429]), Err(12)),
    ]
}

/// One gate of each form on two bits, all wires put out.
const EACH_GATE: &str =
    "6 8\n1 2\n1 8\n2 1 0 1 2 XOR\n2 1 0 1 3 AND\n1 1 0 4 INV\n1 1 1 5 EQW\n1 1 0 6 EQ\n1 1 1 7 EQ\n";

/// Calls of Run and their results.
fn running() -> Vec<Row> {
    let run = |text: &str, list: &[u8]| Call::new(Run, text.as_bytes(), list, &[]);
    let bits = |list: &[u8]| Ok(Given { list: list.to_vec(), ..Given::default() });
    vec![
        row("each gate on 0 and 0", run(EACH_GATE, &[0, 0]), bits(&[0, 0, 0, 0, 1, 0, 0, 1])),
        row("each gate on 1 and 0", run(EACH_GATE, &[1, 0]), bits(&[1, 0, 1, 0, 0, 0, 0, 1])),
        row("each gate on 0 and 1", run(EACH_GATE, &[0, 1]), bits(&[0, 1, 1, 0, 1, 1, 0, 1])),
        row("each gate on 1 and 1", run(EACH_GATE, &[1, 1]), bits(&[1, 1, 0, 1, 0, 1, 0, 1])),
        row("results that do not rise", run(FALLING, &[0, 1]), bits(&[1])),
        row("a bit of 2", run(AND, &[0, 2]), Err(11)),
        row("a bit of 255", run(AND, &[255, 1]), Err(11)),
        row("a bit too many", run(AND, &[0, 1, 1]), Err(11)),
        row("no bit", run(AND, &[]), Err(11)),
        row("a wrong list comes before a short buffer", Call { list_room: 0, ..run(AND, &[2, 2]) }, Err(11)),
        row("no room", Call { list_room: 0, ..run(AND, &[1, 1]) }, Err(14)),
        row("room for all bits but one", Call { list_room: 7, ..run(EACH_GATE, &[1, 1]) }, Err(14)),
        row(
            "an exact fit",
            Call { list_room: 8, ..run(EACH_GATE, &[1, 1]) },
            bits(&[1, 1, 0, 1, 0, 1, 0, 1]),
        ),
    ]
}

/// Calls of Run64 and their results; entries 0 and 1 stand for words of zeros and of ones.
fn running_sixty_four() -> Vec<Row> {
    let run64 = |text: &str, list: &[u8]| Call::new(Run64, text.as_bytes(), list, &[]);
    let words = |words: &[u64]| Ok(Given { words: words.to_vec(), ..Given::default() });
    let any = run64(AND, &[7, 9]);
    let both = any.words()[0] & any.words()[1];
    let (none, ones) = (0, u64::MAX);
    vec![
        row("each gate", run64(EACH_GATE, &[1, 1]), words(&[ones, ones, none, ones, none, ones, none, ones])),
        row(
            "each gate, zeros",
            run64(EACH_GATE, &[0, 0]),
            words(&[none, none, none, none, ones, none, none, ones]),
        ),
        row("any words", any, words(&[both])),
        row("a word too few", run64(AND, &[1]), Err(11)),
        row("a word too many", run64(AND, &[1, 1, 1]), Err(11)),
        row("no word", run64(AND, &[]), Err(11)),
        row("a wrong list comes before a short buffer", Call { list_room: 0, ..run64(AND, &[1]) }, Err(11)),
        row("no room", Call { list_room: 0, ..run64(AND, &[1, 1]) }, Err(14)),
        row("room for all words but one", Call { list_room: 7, ..run64(EACH_GATE, &[1, 1]) }, Err(14)),
        row(
            "an exact fit",
            Call { list_room: 8, ..run64(EACH_GATE, &[1, 0]) },
            words(&[ones, none, ones, none, none, none, none, ones]),
        ),
    ]
}

/// One short table, each in turn, and texts that are too long.
fn lengths() -> Vec<Row> {
    let mut rows = Vec::new();
    for service in Service::ALL {
        for table in 0..service.tables() {
            for length in [service.limits().table - 1, 0] {
                let mut call = Call::new(service, b"#", &[9], &[9]);
                call.tables[table] = length;
                rows.push(row(&format!("table {table} of {length} entries"), call, Err(1)));
            }
        }
        let long = vec![b'#'; service.limits().text + 1];
        rows.push(row("a long text comes before its bytes", Call::new(service, &long, &[9], &[9]), Err(2)));
        let full = vec![b'#'; service.limits().text];
        rows.push(row("a text as long as may be", Call::new(service, &full, &[9], &[9]), Err(3)));
    }
    rows
}

/// All rows.
pub fn rows() -> Vec<Row> {
    let mut rows = lengths();
    for service in Service::ALL {
        for &(name, text, question) in READING {
            rows.push(row(name, Call::new(service, text.as_bytes(), &[9], &[9]), Err(question)));
        }
    }
    for &(name, text, written) in REWRITTEN {
        let given = Given { text: written.into(), ..Given::default() };
        rows.push(row(name, Call::new(Rewrite, text.as_bytes(), &[], &[]), Ok(given)));
    }
    rows.extend(masking());
    rows.extend(checking());
    rows.extend(running());
    rows.extend(running_sixty_four());
    rows
}
