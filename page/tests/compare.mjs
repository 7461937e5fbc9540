/**
 * Compares the module with the program, byte for byte and status for status.
 *
 *     node compare.mjs FOLDER PROGRAM CASES COUNT SEED
 *
 * FOLDER has plantbal.wasm, and CASES is what `cases` prints. Each case goes through a run or a check by its words, and each session of an
 * example also as JSON, with tests, and with elimination; sessions go in blocks too. COUNT sessions and reports are changed by lot.
 */
import { spawnSync } from "node:child_process";
import { readFileSync } from "node:fs";
import { records, textOf } from "../src/records.mjs";
import { asker, end, holds, moduleOf, optionsOf } from "./core.mjs";

const [folder, program, file, count, seed] = process.argv.slice(2);
const ask = asker(moduleOf(`${folder}/plantbal.wasm`));
const cases = JSON.parse(readFileSync(file, "utf8")).map(({ name, words, base64 }) => ({ name, words, data: Buffer.from(base64, "base64") }));
let tried = 0, differ = 0;

function wanted(words, input) {
  const { status, stdout } = spawnSync(program, words, { input, maxBuffer: 1 << 30 });
  return { status, text: stdout };
}

function same(name, want, { status, text = [] }) {
  tried += 1;
  const is = status > 1 ? status === want.status : status === want.status && Buffer.compare(want.text, Buffer.from(text)) === 0;
  if (is) return;
  differ += 1;
  if (differ <= 20) holds(name, false, `status ${status} and not ${want.status}, ${text.length} bytes and ${want.text.length}`);
}

// A session in blocks: of all rows, or of as many bytes as end with a row.
async function inBlocks(options, data, size) {
  await ask({ what: "open", options });
  let refused = 0, codes = 0;
  const texts = [];
  for (let at = 0; at < data.length;) {
    let to = Math.min(data.length, at + size);
    while (to < data.length && data[to - 1] !== 10) to += 1;
    const { status, parts } = await ask({ what: "rows", input: data.subarray(at, to) }, false);
    if (status !== 0) return { status };
    codes += parts.reduce((sum, part) => sum + part.length, 0);
    refused |= parts.some((part) => part.some((code) => code !== 0));
    texts.push((await ask({ what: "output" }, false)).text);
    at = to;
  }
  // The page counts the records of a text as the core does.
  const counted = [...records(textOf(data))].length;
  if (size >= data.length && counted !== codes) holds(`${data.length} bytes have ${codes} records`, false, `the page counts ${counted}`);
  return { status: refused ? 1 : 0, text: Buffer.concat(texts) };
}

async function compared(name, words, data) {
  const options = optionsOf(words);
  if (words[0] === "check" && words.length === 1) same(name, wanted(words, data), await ask({ what: "check", input: data }));
  else if (options !== null) {
    const want = wanted(words, data);
    same(`${name}, ${words.join(" ")}`, want, await ask({ what: "run", input: data, options }));
    if (want.status <= 1) {
      same(`${name} in one block`, want, await inBlocks(options, data, data.length || 1));
      // Only without quotes does every line end a row; a mark in front is taken away from the first block alone.
      if (data.length < 20000 && !data.includes(34) && data[0] !== 0xef) same(`${name} in blocks`, want, await inBlocks(options, data, 300));
    }
  }
}

// ---- changed by lot

let state = BigInt(seed) * 2n + 1n;
function lot(n) {
  state = (state * 6364136223846793005n + 1442695040888963407n) & 0xffffffffffffffffn;
  return Number((state >> 33n) % BigInt(n));
}
const choice = (list) => list[lot(list.length)];

function mutated(data) {
  const rows = data.toString("latin1").split("\n"), fields = rows.flatMap((row) => row.split(","));
  for (let n = 1 + lot(12); n > 0; n -= 1) {
    const at = lot(rows.length), now = rows[at].split(",");
    switch (lot(6)) {
      case 0: now[lot(now.length)] = choice(fields); rows[at] = now.join(","); break;
      case 1: rows.splice(at, 0, choice(rows)); break;
      case 2: rows[at] = now.slice(0, -1).join(","); break;
      case 3: { const other = lot(rows.length); [rows[at], rows[other]] = [rows[other], rows[at]]; break; }
      case 4: rows[at] = rows[at].replace(/\d/, () => String(lot(10))); break;
      default: { const i = lot(rows[at].length + 1); rows[at] = rows[at].slice(0, i) + String.fromCharCode(lot(256)) + rows[at].slice(i + 1); }
    }
  }
  return Buffer.from(rows.join("\n"), "latin1");
}

for (const { name, words, data } of cases) await compared(name, words, data);
holds(`${cases.length} cases by their words: ${tried} calls, ${differ} differ`, differ === 0);

tried = 0;
const sessions = cases.filter(({ name, words }) => words[0] === "run" && name.endsWith(".csv"));
for (const { name, data } of sessions) {
  for (const words of [["run", "--format", "json"], ["run", "--tests"], ["run", "--eliminate", "3", "--gap", "500"]]) await compared(name, words, data);
}
holds(`${sessions.length} examples in other ways: ${tried} calls, ${differ} differ`, differ === 0);

tried = 0;
const small = cases.filter(({ words, data }) => ["run", "check"].includes(words[0]) && data.length > 0 && data.length < 8000);
for (let n = 0; n < Number(count); n += 1) {
  const { name, words, data } = choice(small), changed = mutated(data);
  await compared(`${name}, change ${n} of seed ${seed}`, words[0] === "check" ? ["check"] : ["run"], changed);
}
holds(`${count} files changed by lot: ${tried} calls, ${differ} differ`, differ === 0);
end();
