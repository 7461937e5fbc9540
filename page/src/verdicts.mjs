/**
 * What a check says of a report, as sentences: for each block whether it is right, and if not, which test fails, where, what is stated
 * there and what the report's other numbers give.
 */
import { columnsOf, valuesOf } from "./report.mjs";
import { rowShown } from "./records.mjs";
import { say, whole } from "./words.mjs";

/** The answers of a check. */
export const VERDICT = Object.freeze({ YES: "yes", NO: "no", UNREADABLE: "unreadable" });

const IN_GRAMS = [3, 9, 13];
const NAMED_BY_NODE = [3, 4, 11];

/** Returns the rows of a check's output. */
export function verdictsOf(text) {
  return text.split("\n").filter(Boolean).map((line) => {
    const [verdict, ...rest] = line.split(",");
    if (verdict === VERDICT.UNREADABLE) return { verdict, at: Number(rest[0]), code: Number(rest[1]), word: rest[2] };
    const [period, round, code = "0", word = "", name = "", stated = "", found = ""] = rest;
    return { verdict, period, round: Number(round), code: Number(code), word, name, stated, found };
  });
}

// The first of some columns in which a number stands; a missing number is stated as -1.
function columnWith(values, names, stated) {
  return names.find((name) => values[name] === stated || (values[name] === "" && stated === "-1")) ?? names[0];
}

/** Returns the record and the columns that a `no` is about; without a column it is the whole row. */
export function placeOf(block, { code, name, stated }) {
  const stream = name ? block.find("stream", name) : null, solved = block.find("solved");
  const solvedColumn = (...names) => [solved, solved ? columnWith(valuesOf(solved), names, stated) : ""];
  const streamColumn = (...names) => [stream, stream ? columnWith(valuesOf(stream), names, stated) : ""];
  switch (code) {
    case 1: return [stream, "class"];
    case 2: return [stream, "shape", "parts"];
    case 3: return [block.find("node", name), "name"];
    case 4: return [block.find("node", name), "price"];
    case 5: return [stream, ""];
    case 6: return [solved, "dof"];
    case 7: return solvedColumn("g", "h");
    case 8: return [solved, "state"];
    case 9: return streamColumn("lo", "hi");
    case 10: return solvedColumn("low", "high");
    case 11: {
      const nodal = name ? block.find("nodal", name) : null;
      if (nodal === null) return [block.find("nodal") ?? block.find("global"), ""];
      const values = valuesOf(nodal), column = columnWith(values, ["net", "variance"], stated);
      return [nodal, values[column] === stated ? column : "node"];
    }
    case 12: return [name ? block.find("nodal", name) ?? block.find("measure", name) : block.find("global"), "verdict"];
    case 13: return streamColumn("least_lo", "least_hi");
    default: return [null, ""];
  }
}

/** Returns a row as it stands in the file, with the place at fault. */
export function pictured(text, record, first = "", last = first) {
  const names = columnsOf(record), from = names.indexOf(first) + 1, to = names.indexOf(last) + 1;
  if (!first || from === 0) return rowShown(text, record, 0, record.places.length - 1);
  return rowShown(text, record, from, to || from);
}

function numberSaid(code, text) {
  if (code === 10 && text === "-1") return say("none");
  return /^-?\d+$/.test(text) ? whole(text) : text;
}

/** Returns what is said of a `no`: the sentence, and the parts of its table. */
export function told(block, verdict, text) {
  const { code, name } = verdict;
  const [record, first, last = first] = placeOf(block, verdict);
  const stream = name && !NAMED_BY_NODE.includes(code) ? block.find("stream", name) : null;
  const kind = stream ? valuesOf(stream).class : "";
  const values = {
    name, stated: numberSaid(code, verdict.stated), found: numberSaid(code, verdict.found), column: first.toUpperCase(),
    class: ["redundant", "nonredundant", "observable", "unobservable"].includes(kind) ? say(`c_${kind}`) : kind,
  };
  const special = (code === 12 && !name && "said_12_global") || (code === 11 && !name && "said_11_count");
  const where = [
    name, record && say("line", { line: whole(record.line) }),
    first && first !== "name" ? say("in_column", { column: last === first ? first.toUpperCase() : `${first.toUpperCase()}–${last.toUpperCase()}` }) : "",
  ];
  const grams = (number) => (IN_GRAMS.includes(code) ? say("g", { n: number }) : number);
  const hasNumbers = ![1, 2, 12].includes(code);
  return {
    sentence: say(special || `said_${code}`, values),
    test: `${code} · ${say(`t${code}`)}`,
    place: where.filter(Boolean).join(", "),
    stated: hasNumbers ? grams(values.stated) : "",
    found: hasNumbers ? grams(values.found) : "",
    picture: record && pictured(text, record, first, last),
    marked: markedOf(block, code, name),
  };
}

// The streams and the nodes to mark in the drawing.
function markedOf(block, code, name) {
  if (!name) return { streams: [], nodes: [] };
  const isStream = block.streams.some((each) => each.name === name);
  const isNode = block.all("node").some((each) => each.name === name);
  return NAMED_BY_NODE.includes(code) || !isStream
    ? { streams: [], nodes: isNode ? [name] : [] }
    : { streams: [name], nodes: [] };
}

/** Returns what is said of a row that can't be read. */
export function unreadable(found, verdict, text) {
  const record = found.find(({ number }) => number === verdict.at) ?? null;
  const line = record?.line ?? text.replace(/\n$/, "").split("\n").length;
  return {
    head: say("cut_said", { at: whole(verdict.at), line: whole(line) }),
    why: say(`u${verdict.code}`),
    picture: record && pictured(text, record),
  };
}
