/**
 * Judges typed cells in the browser: reads the text, gives the row that would be booked to a session of the proved core, and says what
 * its code means.
 *
 * The session has the declarations, the periods and which of them are closed. A row that it accepts is struck at once, so that no cell
 * is judged by another. Nothing is booked by this: what the server says when the grid is sent decides.
 */
import { CellFault, CellReader } from './cells.js';
import { readDay } from './days.js';
import { Exact, filled, floored, grouped } from './exact.js';
import { CAUSE, dipSaid, readingSaid, ticketSaid } from './refusals.js';

const FORM = 1;
const FAULT = 'fault', LOOK = 'look', GOOD = '';
// Days in their wrong order: a row with them is never stored, and the core says first what is wrong with its id.
const LATER = '2000-01-02', EARLIER = '2000-01-01';
// An id that the package makes, of a place and a day: only the server has those.
const MADE = /[0-9]{4}-[0-9]{2}-[0-9]{2}/;

// What isn't printed has no place in a figure: the server refuses it.
const UNPRINTED = /(?! )[\p{C}\p{Z}]/u;

const answer = (level, said = '', mass = '', volume = '') => ({ level, said, mass, volume });
const field = (text) => (/[",\r\n]/.test(text) ? `"${text.replaceAll('"', '""')}"` : text);
const rowsOf = (...rows) => rows.map((row) => `${row.map((each) => field(String(each))).join(',')}\n`).join('');

/** What a page with a grid has to judge its cells by. */
export class Judge {
  #session;
  #count = 0;
  #known = new Set();

  constructor(rules, session) {
    this.rules = rules;
    this.#session = session;
    this.reader = new CellReader(rules.reading, rules.words);
    this.tables = new Map();
    this.closed = [];
    const periods = new Map();
    for (const line of rules.rows.split('\n')) {
      const [kind, name, first, last] = line.split(',');
      if (kind === 'strap') this.tables.set(name, [...(this.tables.get(name) ?? []), [BigInt(first), BigInt(last)]]);
      if (kind === 'period') periods.set(name, { name, first, last });
      if (kind === 'close') this.closed.push(periods.get(name));
    }
  }

  /**
   * Opens a judge; it fails if the browser has no WebAssembly, or anything isn't as it should be.
   *
   * @param {{ rules: string, script: string, wasm: string, worker: string }} at the addresses
   */
  static async open({ rules, script, wasm, worker }) {
    const given = fetch(rules).then((found) => (found.ok ? found.json() : Promise.reject(new Error(`${found.status}`))));
    given.catch(() => {}); // it is waited for below
    const { load } = await import(script);
    const core = await load(fetch(wasm), { worker });
    const found = await given;
    if (found.rules?.form !== FORM) throw new Error('the server judges these cells');
    const session = await core.session();
    const codes = await session.rows(found.rules.rows);
    if (codes.some((code) => code !== 0)) throw new Error('the core refuses a row of the book');
    return new Judge(found.rules, session);
  }

  /** Returns what is said of a cell or row: its level, a sentence, mass and volume; null if the server has to say it. */
  async judge(given) {
    const cell = Object.fromEntries(Object.entries(given).map(([key, text]) => [key, typeof text === 'string' ? text.trim() : text]));
    if (Object.values(cell).some((text) => UNPRINTED.test(text))) return null;
    try {
      if (this.rules.kind === 'tickets') return await this.#ticket(cell);
      const place = this.#placeOf(cell.name);
      return await (place.kind === 'tank' ? this.#dip(place, cell) : this.#reading(place, cell));
    } catch (fault) {
      if (fault instanceof CellFault) return answer(FAULT, fault.message);
      throw fault;
    }
  }

  #placeOf(name) {
    const place = this.rules.places.find((each) => name === each.name || (each.tag && name === each.tag));
    if (!place) throw this.reader.fault('NO_PLACE', { name, month: this.rules.month });
    return { ...place, density: place.density ? Exact.of(place.density) : null };
  }

  async #reading(place, { day, amount, was }) {
    const grams = this.reader.grams(amount, place.unit || 't', place.density);
    const least = Exact.of(place.grams), part = Exact.of(place.share).times(new Exact(grams)).magnitude;
    if (grams === 0n && least.over === 0n) throw this.reader.fault('ZERO_WITHOUT_ERROR', {}, 'ERROR_IN_TONNES');
    const deviation = part.against(least) > 0 ? part : least, variance = deviation.times(deviation).raised;
    const fact = { kind: 'reading', name: place.name, day, values: { grams, variance } };
    const code = await this.#codeOf(fact, was, [1, 1]);
    if (code === null) return null;
    const mass = this.#tonnes(grams);
    if (code !== 0) return this.#refused(readingSaid(this.rules, fact, code), mass);
    const look = this.#oddOf(place.name, day, grams);
    return answer(look ? LOOK : GOOD, look, mass);
  }

  // What looks odd about a reading beside the meter's other days.
  #oddOf(name, day, grams) {
    const { far, enough } = this.rules.reading;
    if (grams < 0n) return filled(this.rules.words.RUNS_BACK, {});
    const others = (this.rules.figures[name] ?? []).filter(([other]) => other !== day).map(([, each]) => BigInt(each)).sort((a, b) => (a < b ? -1 : a > b ? 1 : 0));
    const middle = others.length >= enough ? others[Math.floor(others.length / 2)] : 0n, times = BigInt(far);
    if (middle <= 0n || (middle <= times * grams && times * grams <= times * times * middle)) return '';
    return filled(this.rules.words.FAR, { percent: new Exact(100n * grams, middle).rounded });
  }

  async #dip(place, { day, level, density: typed, was }) {
    const table = this.tables.get(place.name) ?? [];
    const mm = this.reader.level(level ?? '', table.length ? table.at(-1)[0] : null);
    const density = this.reader.density(typed ?? '') ?? place.density;
    if (density === null) throw this.reader.fault('DENSITY_MISSING', {}, 'DENSITY_BESIDE');
    const fact = { kind: 'dip', name: place.name, day, values: { mm, density: density.rounded, variance: 1n } };
    const code = await this.#codeOf(fact, was, [table[0]?.[0] ?? 0n, 1, 1]);
    if (code === null) return null;
    if (code !== 0) return this.#refused(dipSaid(this.rules, fact, code, table));
    const ml = volumeAt(table, mm);
    if (ml === null) return answer(GOOD);
    const grams = density.times(new Exact(ml, 1000000n)).rounded;
    return answer(GOOD, '', this.#tonnes(grams), this.#shown(...decimals(ml, 6)));
  }

  async #ticket(cell) {
    const place = this.#placeOf(cell.stream ?? '');
    if (place.kind === 'tank' || place.kind === 'metered') throw this.reader.fault('NO_TICKETS', { name: place.name }, 'NAME_SOLD');
    const unit = this.reader.unit(cell.unit ?? '', 'amounts', place.unit || 't');
    const grams = this.reader.grams(cell.amount ?? '', unit, place.density);
    const first = readDay(this.reader, cell.first ?? ''), last = readDay(this.reader, cell.last || cell.first || '');
    const id = cell.id ?? '';
    if (!(await this.#knows(id))) return null;
    const own = this.#free();
    const rows = rowsOf(['transfer', id, place.name, LATER, EARLIER, 1, 1], ['transfer', own, place.name, first, last, grams, 1], this.#struck(own));
    const [ofId, ofRow] = await this.#session.rows(rows);
    // the core says the first of its rules that a row breaks, which have their codes' order
    const code = Math.min(ofId === CAUSE.ORDER ? Infinity : ofId, ofRow || Infinity);
    const mass = this.#tonnes(grams);
    if (code === Infinity) return answer(GOOD, '', mass);
    return this.#refused(ticketSaid(this.rules, { id, name: place.name, first, last, values: { grams, variance: 1n } }, code, this.closed), mass);
  }

  // ---- the session

  #free() {
    this.#count += 1;
    return `typed.${this.#count}`;
  }

  #struck = (id) => ['strike', id, this.rules.reading.why];

  // The code of a reading or dip: of its own row, or of the amendment of what its day has. Null if that can't be made.
  async #codeOf({ kind, name, day, values }, was, some) {
    const id = this.#free(), typed = Object.values(values);
    if (!was) return (await this.#session.rows(rowsOf([kind, id, name, day, ...typed], this.#struck(id))))[0];
    const rows = rowsOf(['late', kind, id, name, day, ...some], ['amend', id, ...typed, this.rules.reading.why], this.#struck(id));
    const [booked, amended] = await this.#session.rows(rows);
    return booked === 0 ? amended : null;
  }

  // Has the session know the ticket of an id, if the book has it; says whether it knows as much of the id as the book.
  async #knows(id) {
    const found = this.rules.tickets[id];
    if (found === undefined) return !MADE.test(id);
    if (this.#known.has(id)) return true;
    const [of] = found, [day] = this.rules.sentences.service[of] ?? [EARLIER];
    const [code] = await this.#session.rows(rowsOf(['late', 'transfer', id, of, day, day, 1, 1]));
    if (code === 0) this.#known.add(id);
    return code === 0;
  }

  // ---- figures

  #refused = (said, mass = '') => (said === null ? null : answer(FAULT, said, mass));

  #shown(whole, part) {
    const [between, mark] = this.rules.reading.shown;
    return whole.replaceAll(',', between) + (part ? mark + part : '');
  }

  // Grams as tonnes with three decimals; halves go away from 0.
  #tonnes(grams) {
    const rounded = ((grams < 0n ? -grams : grams) + 500n) / 1000n, [whole, part] = [rounded / 1000n, rounded % 1000n];
    return (grams < 0n && rounded > 0n ? '-' : '') + this.#shown(grouped(whole), String(part).padStart(3, '0'));
  }
}

// A number of so many decimals: its whole part with commas, and its decimals without zeros at their end.
function decimals(number, places) {
  const unit = 10n ** BigInt(places);
  return [grouped(number / unit), String(number % unit).padStart(places, '0').replace(/0+$/, '')];
}

// The millilitres at a level, between two points of a table.
function volumeAt(table, mm) {
  for (let at = 1; at < table.length; at += 1) {
    const [[low, first], [high, second]] = [table[at - 1], table[at]];
    if (low <= mm && mm <= high) return first + floored((second - first) * (mm - low), high - low);
  }
  return null;
}
