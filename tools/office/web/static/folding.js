// @ts-check
// Text as it is compared where a person types it: without accents, and without capitals.

// letters of which an accent is a part, and how some are written where a keyboard lacks them
/** @type {Record<string, string>} */
const PLAIN = {
  ß: "ss", æ: "ae", œ: "oe", ø: "o", đ: "d", ð: "d", ł: "l", þ: "th", ı: "i",
};
/** @type {Record<string, string>} */
const SPELT = { ä: "ae", ö: "oe", ü: "ue", å: "aa", ø: "oe" };

/** @type {(text: string, by: Record<string, string>) => string} */
const written = (text, by) => [...text].map((letter) => by[letter] ?? letter).join("");

/** @type {(text: string) => string} */
export function folded(text) {
  const plain = written(text.toLowerCase(), PLAIN).normalize("NFKD");
  return plain.replace(/\p{M}/gu, "");
}

// what is searched for what was typed: a text as it is folded, and as it is spelt out
/** @type {(text: string) => string} */
export function searched(text) {
  const plain = folded(text);
  const spelt = folded(written(text.toLowerCase().normalize("NFC"), SPELT));
  return spelt === plain ? plain : `${plain} ${spelt}`;
}
