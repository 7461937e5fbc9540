/**
 * A bundle's audit: the digest of its zip, the digests of its files, the output made again from the session, and the check of the
 * output. What isn't compared here is said beside it.
 */
import { PlantbalError, STATUS } from "../plantbal.mjs";
import { CARRIED, SEAL, unpacked } from "./zip.mjs";

/** What a step of the audit came to. */
export const STEP = Object.freeze({ GOOD: "good", NOTE: "note", WRONG: "wrong" });

const hex = (buffer) => [...new Uint8Array(buffer)].map((byte) => byte.toString(16).padStart(2, "0")).join("");

/** Returns the SHA-256 of bytes, or null if the browser gives none to this page. */
export async function digestOf(bytes) {
  return globalThis.crypto?.subtle ? hex(await crypto.subtle.digest("SHA-256", bytes)) : null;
}

/** Returns the options of a run by its words, or null if they are no words of a run. */
export function optionsOf(words) {
  const [first, ...rest] = words.split(" ").filter(Boolean), options = {};
  if (first !== "run") return null;
  for (let i = 0; i < rest.length; i += 1) {
    if (rest[i] === "--tests") {
      options.tests = true;
    } else {
      const name = /^--(gap|sweeps|eliminate)$/.exec(rest[i])?.[1];
      if (name === undefined || !/^\d{1,7}$/.test(rest[i + 1] ?? "")) return null;
      options[name] = Number(rest[i += 1]);
    }
  }
  return options;
}

/** Returns the first line in which two texts differ, and both lines; or null. */
export function difference(one, other) {
  let at = 0;
  const end = Math.min(one.length, other.length);
  while (at < end && one[at] === other[at]) at += 1;
  if (at === one.length && at === other.length) return null;
  let begin = at;
  while (begin > 0 && one[begin - 1] !== 10) begin -= 1;
  let line = 1;
  for (let i = 0; i < begin; i += 1) if (one[i] === 10) line += 1;
  const lineAt = (bytes) => {
    let to = begin;
    while (to < bytes.length && bytes[to] !== 10 && to - begin < 400) to += 1;
    return new TextDecoder().decode(bytes.subarray(begin, to));
  };
  return { line, one: lineAt(one), other: lineAt(other) };
}

function sumsOf(text, names) {
  const found = new Map();
  for (const line of text.split("\n")) {
    if (line === "") continue;
    const parts = /^([0-9a-f]{64}) {2}(\S+)$/.exec(line);
    if (parts === null || found.has(parts[2])) return null;
    found.set(parts[2], parts[1]);
  }
  const wanted = names.filter((name) => name !== "SHA256SUMS");
  return found.size === wanted.length && wanted.every((name) => found.has(name)) ? found : null;
}

function manifestOf(bytes) {
  try {
    const found = JSON.parse(new TextDecoder("utf-8", { fatal: true }).decode(bytes));
    const isText = (name) => typeof found[name] === "string";
    return ["plant", "period", "made", "words"].every(isText) && typeof found.files === "object" && found.files !== null ? found : null;
  } catch {
    return null;
  }
}

/**
 * Audits a bundle.
 *
 * @param {Uint8Array} bytes the zip
 * @param {{ run: Function, check: Function }} core how the core is asked, each with what it says while it works
 * @returns {Promise<object>} the steps, the manifest, the session, the output and what the check said of it
 */
export async function audited(bytes, core) {
  const { files, comment, sealedBytes, loose } = await unpacked(bytes);
  const steps = [], step = (level, key, values = {}, more = {}) => steps.push({ level, key, values, ...more });
  if (comment === "") step(STEP.NOTE, "b_zip_none");
  else if (comment === SEAL + await digestOf(bytes.subarray(0, sealedBytes))) step(STEP.GOOD, "b_zip");
  else step(STEP.WRONG, "b_zip_wrong");
  if (loose) step(STEP.WRONG, "b_zip_loose", { name: loose });
  const digests = new Map();
  for (const [name, data] of files) digests.set(name, await digestOf(data));
  compareSums(files, digests, step);
  const manifest = manifestOf(files.get("manifest.json"));
  compareManifest(manifest, digests, step);
  const output = files.get("output.csv"), session = files.get("session.csv");
  await compareRun(core, manifest, session, output, step);
  const checked = await core.check(output);
  return { steps, manifest, session, output, checked, files };
}

function compareSums(files, digests, step) {
  const sums = sumsOf(new TextDecoder().decode(files.get("SHA256SUMS")), [...files.keys()]);
  if (sums === null) {
    step(STEP.WRONG, "b_sums_form");
    return;
  }
  for (const [name, stated] of sums) {
    const found = digests.get(name);
    if (found === stated) step(STEP.GOOD, "b_file", { name });
    else step(STEP.WRONG, "b_file_wrong", { name, found, stated });
  }
}

function compareManifest(manifest, digests, step) {
  const named = ["session.csv", "output.csv", ...Object.keys(CARRIED).filter((name) => digests.has(name)), "summary.txt"];
  const differs = manifest === null ? "manifest.json" : named.find((name) => manifest.files[name] !== digests.get(name));
  if (differs === undefined) step(STEP.GOOD, "b_manifest");
  else step(STEP.WRONG, "b_manifest_wrong", { name: differs });
}

async function compareRun(core, manifest, session, output, step) {
  const words = manifest?.words ?? "", options = optionsOf(words);
  if (options === null) {
    step(STEP.WRONG, "b_run_words", { words: words || "—" });
    return;
  }
  const made = await core.run(session, options);
  if (made.status === STATUS.NO_MEMORY) throw new PlantbalError("memory", "memory ran out");
  if (made.status > STATUS.DONE_REFUSED) {
    step(STEP.WRONG, "b_run_words", { words });
    return;
  }
  const differs = difference(output, made.text);
  if (differs === null) step(STEP.GOOD, "b_run", { n: output.length });
  else step(STEP.WRONG, "b_run_wrong", { line: differs.line }, { differs });
  const refused = new TextDecoder().decode(output).split("\n").filter((line) => line.startsWith("refused,")).length;
  if (refused > 0) step(STEP.NOTE, "b_refused", { n: refused });
}
