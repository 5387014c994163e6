// Lists that a person writes: mask codes by value, and values as bits or in hexadecimal.

/** What is wrong with a list, in words for the person who wrote it. */
export class ListError extends Error {}

/** A code for each bit of a value: one digit for all bits, or a digit for each. The library judges the digits. */
export function codesFrom(text, width) {
  const word = text.trim();
  if (!/^[0-9]+$/.test(word)) throw new ListError('codes are digits: 1, 2, 3, or 0 for a public bit');
  const digits = [...word].map(Number);
  if (digits.length === 1) return Array(width).fill(digits[0]);
  if (digits.length !== width) throw new ListError(`${digits.length} codes for ${width} bits`);
  return digits;
}

/** Codes as they are written: one digit where all are the same. */
export const codesTo = (codes) => (new Set(codes).size === 1 ? String(codes[0]) : codes.join(''));

/** The bits of a value, bit 0 first: 0x and hexadecimal digits, the lowest last; or a 0 or 1 for each bit. */
export function bitsFrom(text, width) {
  const word = text.trim().replaceAll('_', '');
  if (/^0x[0-9a-f]+$/i.test(word)) {
    const number = BigInt(word);
    if (number >> BigInt(width)) throw new ListError(`${word} has more than ${width} bits`);
    return Array.from({ length: width }, (_, bit) => Number(number >> BigInt(bit) & 1n));
  }
  if (!/^[01]+$/.test(word)) throw new ListError('a value is 0x and hexadecimal digits, or a 0 or 1 for each bit');
  if (word.length !== width) throw new ListError(`${word.length} bits for a value of ${width}`);
  return [...word].map(Number);
}

/** A value of bits in hexadecimal, and as its bits with bit 0 first. */
export function bitsTo(bits) {
  const number = bits.reduceRight((sum, bit) => sum << 1n | BigInt(bit), 0n);
  return { hex: `0x${number.toString(16).padStart(Math.ceil(bits.length / 4), '0')}`, bits: bits.join('') };
}

/** A list over all bits, in the pieces that its values have. */
export function byValue(list, widths) {
  let from = 0;
  return widths.map((width) => list.slice(from, (from += width)));
}

/** The mask of a code under m0 and m1 (docs/RULES.md, Mask codes and public bits). */
export const maskOf = (code, m0, m1) => (code & 1 && m0) ^ (code >> 1 && m1);
