/**
 * The refused rows of a session: each with its line, the field that it is about, and what to do.
 *
 * The core gives the cause of a refusal and not its field. The field is found here where the form of a field shows it, or where the
 * rows that were accepted before lack a name; else the whole row is marked.
 */
import { rowShown } from "./records.mjs";
import { say } from "./words.mjs";

/** The causes of refusals, as their codes. */
export const CAUSE = Object.freeze({
  KIND: 1, FIELDS: 2, NAME: 3, NUMBER: 4, DATE: 5, UNKNOWN: 6, DUPLICATE: 7, ORDER: 8, MISMATCH: 9, SEALED: 10, CLOSED: 11, RANGE: 12, FULL: 13,
});

let kinds = [];

/** Takes the kinds of rows of a session: their columns and the columns' types. */
export function takeSessionKinds(rows) {
  kinds = rows;
}

const NAME = /^[A-Za-z0-9_.-]{1,32}$/;
const FORMS = {
  name: (text) => NAME.test(text),
  names: (text) => text.split(" ").every((each) => NAME.test(each)),
  date: (text) => /^(19|20|21)\d\d-(0[1-9]|1[0-2])-(0[1-9]|[12]\d|3[01])$/.test(text) && isDay(text),
  number: (text, column) => /^(0|-?[1-9]\d*)$/.test(text)
    && (column.from === undefined || BigInt(text) >= BigInt(column.from))
    && (column.to === undefined || BigInt(text) <= BigInt(column.to)),
};

function isDay(text) {
  const day = new Date(`${text}T00:00:00Z`);
  return !Number.isNaN(day.getTime()) && day.toISOString().slice(0, 10) === text;
}

// The forms of a row that its fields may be meant for: of its kind, by the number of fields if one has it.
function formOf(fields) {
  const some = kinds.filter(({ kind, words = [] }) => kind === fields[0] && words.every(([at, word]) => fields[at] === word));
  return some.find(({ columns }) => columns.length === fields.length - 1) ?? null;
}

function firstUnfit(fields, type) {
  const form = formOf(fields);
  if (form === null) return -1;
  return form.columns.findIndex((column, i) => column.type === type && !FORMS[type](fields[i + 1], column)) + 1 || -1;
}

/** The names that the accepted rows before a row have declared. */
export class Declared {
  constructor() {
    this.names = new Set(["env"]);
  }

  take(fields) {
    if (["unit", "tank", "boundary", "stream", "period"].includes(fields[0])) this.names.add(fields[1]);
    if (["reading", "transfer", "dip"].includes(fields[0])) this.names.add(fields[1]);
    if (fields[0] === "late") this.names.add(fields[2]);
  }

  firstUnknown(fields) {
    const form = formOf(fields);
    if (form === null) return -1;
    return form.columns.findIndex(({ type, declares }, i) => type === "name" && !declares && !this.names.has(fields[i + 1])) + 1 || -1;
  }
}

/** Returns the first and the last field that a refusal is about. */
export function fieldsOf(record, code, declared) {
  const { fields } = record, whole = [0, fields.length - 1];
  const at = (place) => (place > 0 ? [place, place] : whole);
  switch (code) {
    case CAUSE.KIND:
      if (["critical", "late"].includes(fields[0]) && fields.length > 1) return [1, 1];
      return fields[0] === "stream" && fields.length > 4 ? [4, 4] : [0, 0];
    case CAUSE.NAME: return at(firstUnfit(fields, "name"));
    case CAUSE.NUMBER: return at(firstUnfit(fields, "number"));
    case CAUSE.DATE: return at(firstUnfit(fields, "date"));
    case CAUSE.UNKNOWN: return at(declared.firstUnknown(fields));
    case CAUSE.DUPLICATE: return fields.length > 1 ? [1, 1] : whole;
    case CAUSE.MISMATCH: return fields[0] === "stream" && fields.length > 3 && fields[2] === fields[3] ? [2, 3] : whole;
    case CAUSE.ORDER: return fields[0] === "strap" && fields.length === 4 ? [2, 3] : ofDates(fields) ?? whole;
    case CAUSE.SEALED: return fields.length > 1 ? [0, 1] : whole;
    case CAUSE.CLOSED: return ofDates(fields) ?? whole;
    case CAUSE.RANGE: return fields[0] === "dip" && fields.length > 4 ? [3, 4] : ofDates(fields) ?? whole;
    default: return whole;
  }
}

// The first and the last date of a row, if it has any.
function ofDates(fields) {
  const dates = (formOf(fields)?.columns ?? []).flatMap(({ type }, i) => (type === "date" ? [i + 1] : []));
  return dates.length > 0 ? [dates[0], dates.at(-1)] : null;
}

// A kind of row that there is may still not stand there, or has a word that there isn't.
function keyOf(record, code) {
  const { kind } = record;
  return code === CAUSE.KIND && ["version", "boundary", "stream", "critical", "late"].includes(kind) ? `${code}_${kind}` : String(code);
}

/**
 * Returns the refused rows of a session in sentences.
 *
 * @param {Iterable<object>} found the records of the session
 * @param {Map<number, number>} codes the codes of those that are refused, by their numbers
 * @param {string} text the session
 * @param {number} most how many are said
 */
export function toldRefusals(found, codes, text, most) {
  const declared = new Declared(), said = [], wanted = Math.min(most, codes.size);
  for (const record of found) {
    if (said.length === wanted) break;
    const code = codes.get(record.number);
    if (code === undefined) {
      declared.take(record.fields);
    } else {
      said.push({
        at: record.number, line: record.line, code,
        why: say(`r${keyOf(record, code)}`), remedy: say(`m${keyOf(record, code)}`), picture: rowShown(text, record, ...fieldsOf(record, code, declared)),
      });
    }
  }
  return said;
}
