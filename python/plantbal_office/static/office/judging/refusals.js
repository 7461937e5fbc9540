/** Says why the core refuses a row: the server's sentence for its code, with what was typed filled in. Without a sentence the server is asked. */
import { filled } from './exact.js';
import { daysFrom } from './days.js';

/** The codes of refusals that a cell of a grid may have. */
export const CAUSE = Object.freeze({ NAME: 3, NUMBER: 4, DATE: 5, DUPLICATE: 7, ORDER: 8, MISMATCH: 9, CLOSED: 11, RANGE: 12 });

const NAME = /^[A-Za-z0-9_.-]+$/;

/** What is said of a figure that its column doesn't take, or null. */
function ofNumber({ sentences }, values) {
  const wrong = sentences.numbers.find(({ name, low, high }) => values[name] < BigInt(low) || values[name] > BigInt(high));
  return wrong ? filled(wrong.said, { text: values[wrong.name] }) : null;
}

/** What is said of a place's day on which any figure is refused with a code, or null. */
function ofDay({ refused }, name, day, code) {
  const [found, at] = refused.places[name]?.[day] ?? [];
  return found === code ? refused.said[at] : null;
}

/** Returns why a reading is refused, or null. */
export function readingSaid(rules, { name, day, values }, code) {
  return code === CAUSE.NUMBER ? ofNumber(rules, values) : ofDay(rules, name, day, code);
}

/** Returns why a dip is refused, or null. `table` has the levels and volumes of its tank. */
export function dipSaid(rules, { name, day, values }, code, table) {
  if (code === CAUSE.NUMBER) return ofNumber(rules, values);
  const isIn = table.length > 0 && values.mm >= table[0][0] && values.mm <= table.at(-1)[0];
  if (code === CAUSE.RANGE && !isIn) return filled(rules.sentences.levels[name], { text: values.mm });
  return ofDay(rules, name, day, code);
}

/** Returns why a ticket is refused, or null. `closed` has the name, the first and the last day of each closed period. */
export function ticketSaid(rules, { id, name, first, last, values }, code, closed) {
  const { sentences, tickets } = rules;
  switch (code) {
    case CAUSE.NAME: return ofName(sentences.name, id);
    case CAUSE.NUMBER: return ofNumber(rules, values);
    case CAUSE.DATE: return ofDate(sentences, first, last);
    case CAUSE.DUPLICATE: {
      const [of, struck] = tickets[id] ?? [];
      return of === undefined ? null : filled(sentences.taken[struck ? 1 : 0], { text: id, of });
    }
    case CAUSE.ORDER: return sentences.order;
    case CAUSE.MISMATCH: return sentences.kind[name] ?? null;
    case CAUSE.CLOSED: {
      const touched = closed.filter((each) => each.first <= last && each.last >= first).sort((a, b) => (a.first < b.first ? -1 : 1)).at(-1);
      return touched ? filled(sentences.closed, { period: touched.name }) : null;
    }
    case CAUSE.RANGE: return ofRange(sentences, name, first, last);
    default: return null;
  }
}

function ofRange(sentences, name, first, last) {
  const days = daysFrom(first, last);
  if (days > sentences.long_days) return filled(sentences.long, { days });
  const [since, until, said] = sentences.service[name] ?? [];
  if (said === undefined) return null;
  return filled(said, { text: first >= since && first <= until ? last : first });
}

function ofDate({ day, years }, first, last) {
  const isBeyond = (text) => Number(text.slice(0, 4)) < years[0] || Number(text.slice(0, 4)) > years[1];
  const column = [['first', first], ['last', last]].find(([, text]) => isBeyond(text));
  return column ? filled(day[column[0]], { text: column[1] }) : null;
}

function ofName(said, id) {
  const what = filled(id ? said.text : said.nothing, { label: 'ID', text: id });
  const such = id.trim().replace(/[^A-Za-z0-9_.-]+/g, '_'), { length } = [...id];
  const isSuch = such !== id && such.length <= said.most && NAME.test(such) && /[^_]/.test(such);
  const key = /[^\u0000-\u007f]/.test(id) ? 'letters' : length > said.most ? 'long' : isSuch ? 'such' : 'form';
  return `${what}: ${filled(said[key], { count: length, plain: such })}`;
}
