/** Exact numbers as fractions of whole ones, and sentences with their marks filled in. */

/** A number: `over` divided by `under`, which is above 0. */
export class Exact {
  constructor(over, under = 1n) {
    this.over = over;
    this.under = under;
  }

  /** The number of a text such as `45359237/100000`. */
  static of(text) {
    const [over, under = '1'] = text.split('/');
    return new Exact(BigInt(over), BigInt(under));
  }

  times(other) {
    return new Exact(this.over * other.over, this.under * other.under);
  }

  get magnitude() {
    return new Exact(this.over < 0n ? -this.over : this.over, this.under);
  }

  get isWhole() {
    return this.over % this.under === 0n;
  }

  /** Below 0, 0 or above 0 as this is below, the same as or above another. */
  against(other) {
    const difference = this.over * other.under - other.over * this.under;
    return difference < 0n ? -1 : difference > 0n ? 1 : 0;
  }

  /** The nearest whole number; halves go to the even one. */
  get rounded() {
    const low = floored(this.over, this.under), twice = 2n * (this.over - low * this.under);
    if (twice === this.under) return low % 2n === 0n ? low : low + 1n;
    return twice < this.under ? low : low + 1n;
  }

  /** A number that isn't below 0 with all its decimals, which end, after a mark. */
  written(mark) {
    const low = floored(this.over, this.under);
    let rest = this.over - low * this.under, digits = '';
    while (rest > 0n) {
      digits += String(10n * rest / this.under);
      rest = 10n * rest % this.under;
    }
    return digits ? `${low}${mark}${digits}` : String(low);
  }

  /** The least whole number that isn't less. */
  get raised() {
    return -floored(-this.over, this.under);
  }
}

/** The greatest whole number that isn't more than a quotient; what divides is above 0. */
export function floored(over, under) {
  const quotient = over / under;
  return over % under < 0n ? quotient - 1n : quotient;
}

/** A whole number with commas between thousands. */
export const grouped = (number) => String(number).replace(/\B(?=(\d{3})+$)/g, ',');

/** A text in quotes, as a sentence quotes what was typed. */
export function quoted(text) {
  const quote = text.includes("'") && !text.includes('"') ? '"' : "'";
  return quote + text.replaceAll('\\', '\\\\').replaceAll(quote, `\\${quote}`) + quote;
}

// what stands between thousands in the page's language
const between = { de: '.', es: '.' };

/** A figure with what the page's language writes between thousands. */
const figure = (number) => grouped(number).replaceAll(',', between[globalThis.document?.documentElement.lang] ?? ',');

/** A sentence with values in place of its marks: `{name}`, `{name!r}` in quotes, `{name:,}` with separated thousands. */
export function filled(sentence, values) {
  return sentence.replace(/\{(\w+)(!r|:,)?\}/g, (_, name, form) => {
    const value = values[name];
    if (value === undefined) throw new Error(`there is no ${name} for: ${sentence}`);
    return form === '!r' ? quoted(String(value)) : form === ':,' ? figure(value) : String(value);
  });
}
