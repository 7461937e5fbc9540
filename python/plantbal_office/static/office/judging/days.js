/** Reads a typed day as the server's reader of workbooks does. A day is its text in the form of ISO 8601. */

const DAY = /^([0-9]{1,4})([./-])\s?([0-9]{1,2})\2\s?([0-9]{1,4})\.?$/;
const TIME = /^(.*?)[ T]+([0-9]{1,2}:[0-9]{2}(?::[0-9]{2}(?:[.,][0-9]+)?)?)$/;
const NAMED = /^([0-9]{1,2})\.?[ -]([\p{L}\p{Nl}\p{No}_]+)\.?[ -]([0-9]{4})$/u;
const MIDNIGHT = /^0?0:00(:00([.,]0+)?)?$/;
const MILLISECONDS = 86400000;

/** The day of year, month and day, or null if the calendar hasn't it. */
export function dayOf(year, month, day) {
  if (year < 1 || year > 9999 || month < 1 || month > 12) return null;
  const date = new Date(0);
  date.setUTCFullYear(year, month - 1, day);
  return date.getUTCDate() === day && date.getUTCMonth() === month - 1 ? textOf(date) : null;
}

const textOf = (date) => `${String(date.getUTCFullYear()).padStart(4, '0')}-${String(date.getUTCMonth() + 1).padStart(2, '0')}-${String(date.getUTCDate()).padStart(2, '0')}`;
const timeOf = (day) => Date.parse(`${day}T00:00:00Z`);

/** How many days are from the first to the last, both counted. */
export const daysFrom = (first, last) => Math.round((timeOf(last) - timeOf(first)) / MILLISECONDS) + 1;

/**
 * The day of a cell.
 *
 * @param {import('./cells.js').CellReader} reader whose locale and sentences it has
 * @param {string} text the cell
 */
export function readDay(reader, text) {
  const split = text ? TIME.exec(text) : null;
  const found = text ? dayIn(reader.reading, split ? split[1] : text) : null;
  if (found === null) {
    const [remedy, more] = ofOrder(reader.reading, text);
    throw text ? reader.fault('NOT_A_DAY', { text }, remedy, more) : reader.fault('NO_DAY', {}, remedy, more);
  }
  if (split && !MIDNIGHT.test(split[2])) throw reader.fault('TIME_OF_DAY', { text, time: split[2] }, 'DAY_ALONE');
  return found;
}

function dayIn({ order, months, epoch, serials }, given) {
  const text = given.trim();
  if (/^[0-9]{5}$/.test(text)) {
    const number = Number(text);
    return number >= serials[0] && number <= serials[1] ? textOf(new Date(timeOf(epoch) + number * MILLISECONDS)) : null;
  }
  const named = NAMED.exec(text);
  if (named) return dayOf(Number(named[3]), months[named[2].toLowerCase()] ?? 0, Number(named[1]));
  const match = DAY.exec(text);
  if (!match) return null;
  const [, first, mark, second, third] = match;
  if (first.length === 4) return dayOf(Number(first), Number(second), Number(third));
  const parts = {};
  [...(mark === '.' ? 'dmy' : order)].forEach((name, at) => { parts[name] = [first, second, third][at]; });
  if (parts.y.length !== 2 && parts.y.length !== 4) return null;
  const year = Number(parts.y) + (parts.y.length === 2 ? (Number(parts.y) < 70 ? 2000 : 1900) : 0);
  return dayOf(year, Number(parts.m), Number(parts.d));
}

// What to do if a text is a day once its day and month are exchanged, or in general.
function ofOrder({ locale, order }, text) {
  const match = DAY.exec(text);
  if (!match || match[2] === '.' || match[1].length === 4) return ['WRITE_DAY', {}];
  const months = [match[1], match[3]].filter((part) => Number(part) <= 12);
  if (months.length !== 1) return ['WRITE_DAY', {}];
  return [order === 'mdy' ? 'MONTH_FIRST' : 'DAY_FIRST', { locale }];
}
