// A value of a canonical file as people write it, as in tools/p21_plainly.py: 52.5 for 5.25E1, “Müller” for 'M\X2\00FC\X0\ller'.

import { shown } from "./reading.mjs";

// What stands as it is: binaries, items, names of instances and of types. Then a string, a real with its digits, and a comma.
const WORD = /"[^"]*"|\.[A-Z_]\w*\.|#\d+|[A-Z_]\w*|'((?:[^']|'')*)'|(-?)(\d)\.(\d*)(?:E(-?\d+))?|,/g;
const ESCAPE = /''|\\\\|\\X[24]\\([0-9A-F]+)\\X0\\/g;
// A real is written without an exponent where that goes from the one of these to the other.
const EXPONENTS = [-6, 15];

/** The characters of a string, by what stands between its apostrophes. */
export function unescaped(text) {
  return text.replace(ESCAPE, (word, hex) => (hex ? String.fromCodePoint(Number.parseInt(hex, 16)) : word[0]));
}

/** A real by its sign, its first digit, the further ones, and its exponent. */
function real(sign, first, further, exponent) {
  const digits = first + further;
  const point = exponent + 1;
  if (exponent < EXPONENTS[0] || exponent > EXPONENTS[1]) return `${sign}${first}${further && `.${further}`}E${exponent}`;
  if (point <= 0) return `${sign}0.${"0".repeat(-point)}${digits}`;
  if (point >= digits.length) return sign + digits.padEnd(point, "0");
  return `${sign}${digits.slice(0, point)}.${digits.slice(point)}`;
}

/** A value as people write it. */
export function plainly(value) {
  return value.replace(WORD, (word, text, sign, first, further, exponent) => {
    if (text !== undefined) return `“${shown(unescaped(text))}”`;
    if (first !== undefined) return real(sign, first, further, Number(exponent ?? 0));
    return word === "," ? ", " : word;
  });
}

/** Does a value have what nobody writes: an exponent, or a sign that is doubled or spelled by its number? */
export function isSpelled(value) {
  for (const [, text, , first, , exponent] of value.matchAll(WORD)) {
    if (first !== undefined && exponent !== undefined) return true;
    if (text !== undefined && unescaped(text) !== text) return true;
  }
  return false;
}
