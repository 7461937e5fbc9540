/**
 * The blocks of a report or of an output, as rows with their columns.
 */
import { records } from "./records.mjs";

/** The columns of each kind of row, by the schema of the formats; `without` are those that an older stream row lacks. */
let columns = {}, without = [];

export function takeColumns(output, lacking) {
  columns = output;
  without = lacking;
}

/** Returns the columns of a record: as many as it has fields, if its kind is known. */
export function columnsOf(record) {
  const names = columns[record.kind];
  if (names === undefined) return [];
  return record.fields.length - 1 === names.length - without.length && record.kind === "stream"
    ? names.filter((name) => !without.includes(name))
    : names;
}

/** Returns the values of a record by its columns; what isn't there is empty. */
export function valuesOf(record) {
  const values = Object.fromEntries((columns[record.kind] ?? []).map((name) => [name, ""])), { fields } = record;
  columnsOf(record).forEach((name, i) => {
    values[name] = fields[i + 1] ?? "";
  });
  return values;
}

const WHOLE = /^-?\d{1,60}$/;

/** Returns a whole number, or null if there is none. */
export const numberOf = (text) => (WHOLE.test(text ?? "") ? BigInt(text) : null);

/** A block of a report: its rows by their kinds, and each row's record. */
class Block {
  constructor(record) {
    this.rows = [record];
    this.head = valuesOf(record);
    this.ended = false;
    this.kept = new Map();
  }

  get period() {
    return this.head.period;
  }

  get round() {
    return Number(numberOf(this.head.round) ?? 0n);
  }

  /** The rows of a kind. */
  all(kind) {
    if (!this.kept.has(kind)) this.kept.set(kind, this.rows.filter((row) => row.kind === kind).map(valuesOf));
    return this.kept.get(kind);
  }

  /** The only row of a kind, or null. */
  one(kind) {
    return this.all(kind)[0] ?? null;
  }

  /** The record of the first row of a kind, or of that with a name. */
  find(kind, name = "") {
    return this.rows.find((row) => row.kind === kind && (name === "" || row.fields[1] === name)) ?? null;
  }

  get streams() {
    return this.all("stream");
  }
}

/**
 * Returns the blocks of a text, and the rows that stand between them.
 *
 * @returns {{ blocks: Block[], between: object[], records: object[] }}
 */
export function parsed(text) {
  const found = [...records(text)], blocks = [], between = [];
  let block = null;
  for (const record of found) {
    const { kind } = record;
    if (kind === "report") {
      block = new Block(record);
      blocks.push(block);
    } else if (block !== null) {
      block.rows.push(record);
      if (kind === "end") {
        block.ended = true;
        block = null;
      }
    } else {
      between.push(record);
    }
  }
  return { blocks, between, records: found };
}
