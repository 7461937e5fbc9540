/**
 * Reads a typed cell as the server's reader of workbooks does: figures, units, levels and densities, exactly.
 *
 * How a locale writes them, the units, and each sentence come from the server with the page's rules. The tests give the same texts to both.
 */
import { Exact, filled } from './exact.js';

/** What is wrong with a cell, as a sentence that says what to do. */
export class CellFault extends Error {}

const SPACED = /^[+-]?[1-9][0-9]{0,2}(?:[ \u00a0\u2009\u202f'\u2019][0-9]{3})+(?:[.,][0-9]*)?$/;
const EXPONENT = /^(.*[0-9.,])[eE]([+-]?[0-9]{1,3})$/;
const WITH_UNIT = /^(.*?[0-9.,])\s*([\p{L}\p{Nl}\p{No}][\p{L}\p{N}_³]*(?:\/[\p{L}\p{N}_³]+)?)$/u;
const RATE = /^[[(]?([\p{L}\p{Nl}\p{No}][\p{L}\p{N}_³]*)\/(?:hr?|hours?|d|day|min|s)[\])]?$/iu;
const plainly = (text) => text.replace(/[.*+?^${}()|[\]\\/-]/g, '\\$&');

/** A number as it was typed: exactly, and whether it has decimals. */
export class CellReader {
  /**
   * @param {object} reading how figures, units and days are read
   * @param {object} words the sentences by their names
   */
  constructor(reading, words) {
    Object.assign(this, { reading, words });
    this.forms = new Map();
    this.units = new Map(Object.entries(reading.units).filter(([name]) => ['amounts', 'volumes', 'lengths', 'densities'].includes(name))
      .map(([name, some]) => [name, new Map(Object.entries(some).map(([unit, factor]) => [unit, Exact.of(factor)]))]));
    this.known = new Map(reading.units.known.map((unit) => [unit.toLowerCase(), unit]));
    this.others = new Map(Object.entries(reading.units.words));
  }

  /** A fault by the names of its cause and of its remedy. */
  fault(cause, values = {}, remedy = '', more = {}) {
    const what = filled(this.words[cause], values);
    return new CellFault(remedy ? `${what}: ${filled(this.words[remedy], { ...values, ...more })}` : what);
  }

  isMissing(text) {
    return !text || this.reading.missing.includes(text.toLowerCase());
  }

  // ---- figures

  /** The number of a text with a decimal mark and what is between thousands, or null. */
  plain(text, mark, group) {
    const key = mark + group;
    if (!this.forms.has(key)) {
      const thousands = group ? plainly(group) : '';
      this.forms.set(key, new RegExp(`^[+-]?(?:[0-9]+|[1-9][0-9]{0,2}(?:${thousands}[0-9]{3})+)(?:${plainly(mark)}[0-9]+)?$`));
    }
    if (text.length > this.reading.digits || !this.forms.get(key).test(text)) return null;
    const [whole, part = ''] = (group ? text.replaceAll(group, '') : text).replace('+', '').split(mark);
    const digits = BigInt(whole.replace('-', '') + part);
    return new Exact(whole.startsWith('-') ? -digits : digits, 10n ** BigInt(part.length));
  }

  /** The number of a text. */
  number(text) {
    if (!text) throw this.fault('NO_FIGURE', { text }, 'WRITE_FIGURE');
    return this.numberOf(text);
  }

  numberOf(text) {
    let plain = text.trim().replaceAll('\u2212', '-');
    if (SPACED.test(plain)) plain = plain.replace(/[ \u00a0\u2009\u202f'\u2019]/g, '');
    const exponent = EXPONENT.exec(plain);
    if (exponent) plain = exponent[1];
    const [mark, group] = this.reading.marks, number = this.plain(plain, mark, exponent ? '' : group);
    if (number === null) throw this.notANumber(text, plain, exponent);
    if (!exponent) return number;
    const power = BigInt(exponent[2].replace('+', ''));
    return number.times(power < 0n ? new Exact(1n, 10n ** -power) : new Exact(10n ** power));
  }

  notANumber(text, plain, exponent) {
    const { locale, others } = this.reading;
    for (const [other, mark, point, group] of others) {
      if (this.plain(plain, point, exponent ? '' : group) !== null) {
        return this.fault('MARK_OF_OTHER_LOCALE', { text, mark, locale: filled(this.words.OWN_LOCALE, { locale }) }, 'USE_LOCALE', { locale: other });
      }
    }
    const rate = RATE.exec(text.slice(text.lastIndexOf(' ') + 1));
    if (rate) return this.fault('NO_FIGURE', { text }, 'NOT_A_RATE', { unit: rate[1] });
    if (text.startsWith('#')) return this.fault('FORMULA_FAILS', { text }, 'CLEAR_CELL');
    return this.fault('NO_FIGURE', { text }, 'USE_MISSING');
  }

  // ---- units

  /** A unit as the tables write it. */
  unitOf(text) {
    let plain = text.trim().replace(/^[[\]()]+|[[\]()]+$/g, '').trim();
    plain = this.others.get(plain.toLowerCase()) ?? plain;
    return plain === this.reading.units.megalitres ? plain : this.known.get(plain.toLowerCase()) ?? plain;
  }

  /** The unit that a cell names, or the one that holds without it. */
  unit(text, kinds, usual) {
    if (this.isMissing(text)) return usual;
    const found = this.unitOf(text), some = this.units.get(kinds);
    if (some.has(found)) return found;
    if (this.reading.tons.includes(text.toLowerCase())) throw this.fault('NO_UNIT_OF_KIND', { text }, 'NOT_TONS');
    if (this.reading.units.wet.includes(found)) throw this.fault('NO_UNIT_OF_KIND', { text }, 'DRY_TONNES');
    const rate = RATE.exec(text);
    if (rate) throw this.fault('NO_UNIT_OF_KIND', { text }, 'NOT_A_RATE', { unit: rate[1] });
    throw this.fault('NO_UNIT_OF_KIND', { text }, 'ONE_OF', { units: [...some.keys()].join(', ') });
  }

  /** The number of a cell, and the unit after it or nothing. */
  split(text, kinds) {
    const parted = WITH_UNIT.exec(text);
    if (parted && this.units.get(kinds).has(this.unitOf(parted[2]))) return [this.numberOf(parted[1]), this.unitOf(parted[2])];
    return [this.number(text), ''];
  }

  // ---- amounts, levels, densities

  /** An amount in whole grams; a volume is multiplied by its density. */
  grams(text, unit, density) {
    const [number, own] = this.split(text, 'amounts');
    return number.times(this.factor(text, own || unit, density)).rounded;
  }

  factor(text, unit, density) {
    if (!this.units.get('volumes').has(unit)) return this.units.get('amounts').get(unit);
    if (density === null) throw this.fault('NO_DENSITY_OF_VOLUME', { text, unit }, 'WRITE_DENSITY');
    return this.units.get('volumes').get(unit).times(density);
  }

  /** A density in g/m³, or null; a plain number is in kg/m³. */
  density(text) {
    if (this.isMissing(text)) return null;
    const [number, unit] = this.split(text, 'densities'), [low, high] = this.reading.density.map((each) => new Exact(BigInt(each)));
    const isPlain = number.against(low) >= 0 && number.against(high) <= 0;
    if (number.over <= 0n || (!unit && !isPlain)) throw this.fault('NOT_A_DENSITY', { text }, 'DENSITY_WITH_UNIT');
    return number.times(this.units.get('densities').get(unit || 'kg/m3'));
  }

  /** A level in whole millimetres; a number with decimals may be of another unit if the tank's table reaches so far. */
  level(text, top) {
    const [number, own] = this.split(text, 'lengths'), lengths = this.units.get('lengths');
    if (top !== null && !own && !number.isWhole) {
      const others = ['m', 'cm'].filter((each) => {
        const level = number.times(lengths.get(each));
        return level.over > 0n && level.against(new Exact(top)) <= 0;
      });
      if (others.length) {
        const readings = others.map((each) => `${text} ${each}`).join(' or ');
        const mm = number.times(lengths.get(others[0])).written(this.reading.marks[0]);
        throw this.fault('LEVEL_WITHOUT_UNIT', { text, readings }, 'LEVEL_IN', { unit: others[0], mm, whole: number.rounded });
      }
    }
    return number.times(lengths.get(own || 'mm')).rounded;
  }
}
