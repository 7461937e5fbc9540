/**
 * What a file is: a report, a session, a bundle, or something else that has a sentence of its own.
 */
import { records, textOf } from "./records.mjs";

/** What a file may be. Those after BUNDLE can't be judged here, and each of them is a key of the words: `not_...`. */
export const KIND = Object.freeze({
  REPORT: "report", SESSION: "session", BUNDLE: "bundle",
  EMPTY: "empty", LARGE: "large", UTF16: "utf16", WORKBOOK: "workbook", ZIP: "zip", PDF: "pdf", WEB: "web", JSON: "json",
  OFFICE: "office", PICTURE: "picture", SEMICOLONS: "semicolons", TABS: "tabs", VERDICTS: "verdicts", PACKED: "packed",
  BINARY: "binary", OTHER: "other",
});

/** Whether a file of this kind can be judged here. */
export const isJudged = (kind) => [KIND.REPORT, KIND.SESSION, KIND.BUNDLE].includes(kind);

const BEGINNINGS = [
  [KIND.PDF, [0x25, 0x50, 0x44, 0x46]],
  [KIND.OFFICE, [0xd0, 0xcf, 0x11, 0xe0]],
  [KIND.PICTURE, [0x89, 0x50, 0x4e, 0x47]],
  [KIND.PICTURE, [0xff, 0xd8, 0xff]],
  [KIND.PICTURE, [0x47, 0x49, 0x46, 0x38]],
  [KIND.PACKED, [0x1f, 0x8b]],
  [KIND.PACKED, [0x37, 0x7a, 0xbc, 0xaf]],
  [KIND.PACKED, [0x52, 0x61, 0x72, 0x21]],
  [KIND.UTF16, [0xff, 0xfe]],
  [KIND.UTF16, [0xfe, 0xff]],
];
const ONLY_IN_REPORTS = ["report", "node", "solved", "end", "over", "design", "class", "refused", "global", "nodal", "measure", "taken"];
const MOST_LOOKED_AT = 1 << 20;

const beginsWith = (bytes, signs) => signs.every((sign, i) => bytes[i] === sign);

/**
 * Returns what a file is.
 *
 * @param {Uint8Array} bytes its bytes
 * @param {string[]} sessionKinds the kinds of rows that a session has
 * @param {number} most how many bytes a file may have
 */
export function kindOf(bytes, sessionKinds, most) {
  if (bytes.length === 0) return KIND.EMPTY;
  if (beginsWith(bytes, [0x50, 0x4b, 3, 4]) || beginsWith(bytes, [0x50, 0x4b, 5, 6])) return kindOfZip(bytes);
  for (const [kind, signs] of BEGINNINGS) if (beginsWith(bytes, signs)) return kind;
  if (bytes.length > most) return KIND.LARGE;
  const head = bytes.subarray(0, MOST_LOOKED_AT);
  if (head.includes(0)) return KIND.BINARY;
  return kindOfText(textOf(head), sessionKinds);
}

function kindOfZip(bytes) {
  // Names of files in a zip stand there as they are, in its first and its last bytes.
  const ends = textOf(bytes.subarray(0, 4096)) + textOf(bytes.subarray(-8192));
  if (ends.includes("manifest.json") && ends.includes("session.csv")) return KIND.BUNDLE;
  if (ends.includes("[Content_Types].xml") || ends.includes("mimetype")) return KIND.WORKBOOK;
  return KIND.ZIP;
}

function kindOfText(text, sessionKinds) {
  const start = text.trimStart().slice(0, 200).toLowerCase();
  if (start === "") return KIND.EMPTY;
  if (start.startsWith("<!doctype") || start.startsWith("<html") || start.startsWith("<?xml") || start.startsWith("<svg")) {
    return KIND.WEB;
  }
  if (start.startsWith("{") || start.startsWith("[")) return KIND.JSON;
  const seen = new Map();
  let semicolons = 0, tabs = 0;
  for (const { kind } of records(text)) {
    seen.set(kind, (seen.get(kind) ?? 0) + 1);
    if (kind.includes(";")) semicolons += 1;
    if (kind.includes("\t")) tabs += 1;
  }
  const count = (kinds) => kinds.reduce((sum, kind) => sum + (seen.get(kind) ?? 0), 0);
  const reported = count(["node", "solved", "end"]);
  if (reported === 0 && count(["yes", "no", "unreadable"]) > 0) return KIND.VERDICTS;
  if (semicolons > 0 && reported === 0) return KIND.SEMICOLONS;
  if (tabs > 0 && reported === 0) return KIND.TABS;
  if (reported > 0) return KIND.REPORT;
  const asked = count(sessionKinds.filter((kind) => !ONLY_IN_REPORTS.includes(kind) || kind === "report"));
  if (asked > 0) return KIND.SESSION;
  return count(ONLY_IN_REPORTS) > 0 ? KIND.REPORT : KIND.OTHER;
}
