/**
 * What the page says, in the language that the reader chose: sentences by their keys, and numbers with that language's signs.
 */

export const LANGUAGES = Object.freeze(["en", "de", "es"]);
const NUMBER_SIGNS = { en: [",", "."], de: [".", ","], es: ["\u202f", ","] };

let all = {};
let language = "en";

/** Takes the words of all languages, and chooses the browser's. */
export function takeWords(words, wanted) {
  all = words;
  const found = wanted.map((each) => each.slice(0, 2).toLowerCase()).find((each) => LANGUAGES.includes(each));
  chooseLanguage(found ?? "en");
}

export function chooseLanguage(chosen) {
  language = chosen;
}

export const chosenLanguage = () => language;
export const nameOfLanguage = (each) => all[each].language;

/** Returns the sentence of a key, with its values. */
export function say(key, values = {}) {
  const sentence = all[language][key];
  if (sentence === undefined) throw new Error(`there are no words for ${key}`);
  return sentence.replace(/\{(\w+)\}/g, (_, name) => String(values[name]));
}

/** Returns a whole number, given by its digits, with signs between thousands. */
export function whole(number) {
  const text = String(number), sign = text.startsWith("-") ? "−" : "";
  return sign + text.replace("-", "").replace(/\B(?=(\d{3})+$)/g, NUMBER_SIGNS[language][0]);
}

// A scaled whole number as a decimal one.
function decimal(scaled, places) {
  const negative = scaled < 0n, digits = String(negative ? -scaled : scaled).padStart(places + 1, "0");
  const text = whole(digits.slice(0, digits.length - places)) + (places ? NUMBER_SIGNS[language][1] + digits.slice(-places) : "");
  return negative && /[1-9]/.test(digits) ? `−${text}` : text;
}

/** Returns whole grams as tonnes with three decimals; halves go away from 0. */
export function tonnes(grams) {
  if (grams === null) return "";
  const negative = grams < 0n, scaled = ((negative ? -grams : grams) + 500n) / 1000n;
  return decimal(negative ? -scaled : scaled, 3);
}

/** Returns the same with a plus in front of what is above 0. */
export const signedTonnes = (grams) => (grams === null ? "" : (grams > 0n ? "+" : "") + tonnes(grams));

/** Returns thousandths as a decimal number. */
export const thousandths = (number) => (number === null ? "" : decimal(number, 3));

/** Returns a number that isn't exact, with two decimals and its sign. */
export function signedDecimal(number) {
  if (number === null) return "";
  return (number > 0 ? "+" : "") + decimal(BigInt(Math.round(number * 100)), 2);
}
