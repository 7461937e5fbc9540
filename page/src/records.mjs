/**
 * The records of a CSV file, each with its number, its line and its fields, as the core counts them.
 *
 * Bytes are read as UTF-8 and, where they aren't, as the letters of Western Europe, so that a row can always be shown. A line without
 * anything in it is no record.
 */

/** Returns the text of bytes, without a mark at their beginning. */
export function textOf(bytes) {
  try {
    return new TextDecoder("utf-8", { fatal: true }).decode(bytes);
  } catch {
    return new TextDecoder("windows-1252").decode(bytes).replace(/^ï»¿/, "");
  }
}

/** A record: where it stands. Its fields are read when they are asked for, so that a text of a million rows stays small. */
class TextRecord {
  constructor(text, number, line, begin, end) {
    Object.assign(this, { text, number, line, begin, end });
  }

  /** Its first field. */
  get kind() {
    if (this.text[this.begin] === '"') return this.fields[0];
    const comma = this.text.indexOf(",", this.begin);
    return this.text.slice(this.begin, comma < 0 ? this.end : Math.min(comma, this.end));
  }

  get fields() {
    return fieldsFrom(this.text, this.begin).fields;
  }

  /** Where each field begins and ends. */
  get places() {
    return fieldsFrom(this.text, this.begin).places;
  }
}

/**
 * Gives the records of a text one after the other.
 *
 * @returns {Generator<TextRecord>}
 */
export function* records(text) {
  const quotes = finder(text, '"'), feeds = finder(text, "\n"), returns = finder(text, "\r");
  let at = 0, line = 1, number = 0;
  while (at < text.length) {
    const begin = at, first = line;
    at = Math.min(feeds(begin), returns(begin));
    if (quotes(begin) < at) {
      at = fieldsFrom(text, begin).end;
      for (let i = begin; i < at; i += 1) if (text[i] === "\n") line += 1;
    }
    const end = at;
    at += text[at] === "\r" && text[at + 1] === "\n" ? 2 : 1;
    line += 1;
    if (end > begin) yield new TextRecord(text, number += 1, first, begin, end);
  }
}

// The fields of the record that begins at a place, where each stands, and where the record ends.
function fieldsFrom(text, begin) {
  const fields = [], places = [];
  let at = begin, ended = false;
  while (!ended) {
    const from = at;
    let field = "";
    if (text[at] === '"') {
      at += 1;
      for (;;) {
        const quote = text.indexOf('"', at);
        field += text.slice(at, quote < 0 ? text.length : quote);
        at = quote < 0 ? text.length : quote + 1;
        if (quote < 0 || text[at] !== '"') break;
        field += '"';
        at += 1;
      }
    }
    const rest = endOfField(text, at);
    fields.push(field + text.slice(at, rest));
    places.push([from, rest]);
    at = rest;
    ended = text[at] !== ",";
    if (!ended) at += 1;
  }
  return { fields, places, end: at };
}

// Gives where a sign stands next, or the end of the text, for places that go forward.
function finder(text, sign) {
  let next = -1;
  return (at) => {
    if (next < at) next = text.indexOf(sign, at);
    if (next < 0) next = text.length;
    return next;
  };
}

function endOfField(text, at) {
  for (let i = at; i < text.length; i += 1) {
    const c = text.charCodeAt(i);
    if (c === 44 || c === 10 || c === 13) return i;
  }
  return text.length;
}

/** Returns the line in which a record stands, and the mark below some of its fields: the columns of the first and the last sign. */
export function rowShown(text, record, first = 0, last = first) {
  const most = 160, { places } = record;
  const line = text.slice(record.begin, record.end).replace(/[\r\n]/g, " ");
  const from = (places[first] ?? places[0])[0] - record.begin;
  const to = Math.max(from + 1, (places[last] ?? places.at(-1))[1] - record.begin);
  if (line.length <= most) return { line, from, to };
  // A long line is cut about the place at fault.
  const left = Math.max(0, Math.min(from - 40, line.length - most));
  const cut = line.slice(left, left + most);
  const dots = left > 0 ? "… " : "";
  return {
    line: dots + cut + (left + most < line.length ? " …" : ""),
    from: from - left + dots.length,
    to: Math.min(to - left, most) + dots.length,
  };
}
