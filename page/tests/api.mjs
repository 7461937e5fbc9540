/**
 * The module as others call it, with real workers: its answers, its limits, what stops a call, and what a freed session says.
 *
 *     node api.mjs FOLDER SESSION LARGE
 *
 * LARGE is a session of 2,000 streams.
 */
import { readFileSync } from "node:fs";
import { load, MOST_BYTES, PlantbalError, STATUS, workerSource } from "../plantbal.mjs";
import { end, holds } from "./core.mjs";

const [folder, path, largest] = process.argv.slice(2);
const bytes = readFileSync(`${folder}/plantbal.wasm`), session = readFileSync(path), large = readFileSync(largest);
const core = await load(bytes);
const textOf = (text) => new TextDecoder().decode(text);

async function reasonOf(promise) {
  try {
    await promise;
    return "none";
  } catch (fault) {
    return fault instanceof PlantbalError ? fault.reason : String(fault);
  }
}

// Makes a module whose memory may have at most so many pages: its memory section holds the least and the most.
function limited(wasm, most) {
  const number = (at) => {
    let value = 0, shift = 0, i = at;
    for (;; i += 1) {
      value += (wasm[i] & 127) * 2 ** shift;
      shift += 7;
      if (wasm[i] < 128) return [value, i + 1];
    }
  };
  const written = (value) => (value < 128 ? [value] : [(value & 127) | 128, ...written(Math.floor(value / 128))]);
  for (let at = 8; at < wasm.length;) {
    const [size, from] = number(at + 1);
    if (wasm[at] === 5) {
      const [least] = number(from + 2), body = [1, 1, ...written(least), ...written(most)];
      return Buffer.concat([wasm.subarray(0, at), Buffer.from([5, body.length, ...body]), wasm.subarray(from + size)]);
    }
    at = from + size;
  }
  throw new Error("no memory section");
}

const report = await core.run(session);
holds("a run answers", report.status === STATUS.DONE && textOf(report.text).includes("\nend,"));
const check = await core.check(report.text);
holds("a check answers", check.status === STATUS.DONE && textOf(check.text).startsWith("yes,"));
holds("a text is an input too", textOf((await core.check("report\n")).text).startsWith("unreadable,1,2,fields"));

const rows = await core.session();
holds("a session gives codes", String(await rows.rows("unit,A\nunit,A\n")) === "0,7");
holds("and its output, once", textOf(await rows.output()) === "refused,2,7,duplicate\n" && (await rows.output()).length === 0);
const waiting = rows.rows(session);
rows.free();
holds("what a freed session waits for is rejected", await reasonOf(waiting) === "freed");
holds("a freed session takes nothing", await reasonOf(rows.rows("unit,B\n")) === "freed" && await reasonOf(rows.output()) === "freed");
const long = await core.session();
const codes = await long.rows("unit,A\n".repeat(150000));
holds("a block of 150,000 rows has as many codes", codes.length === 150000 && codes[0] === 0 && codes.every((code, i) => i === 0 || code === 7));
long.free();

holds("options outside their limits are a usage", (await core.run(session, { gap: 0 })).status === STATUS.USAGE
  && (await core.run(session, { gap: 2 ** 32 + 10 })).status === STATUS.USAGE && (await core.run(session, { sweeps: 1.5 })).status === STATUS.USAGE
  && await reasonOf(core.session({ eliminate: 21 })) === "usage");
let said = "";
try { await core.run(session, { gaps: 10 }); } catch (fault) { said = String(fault); }
holds("an option that there isn't is refused", said.includes("gaps"));

const most = new Uint8Array(MOST_BYTES + 1).fill(10);
holds("a byte more than the limit is too large", (await core.check(most)).status === STATUS.TOO_LARGE && (await core.run(most)).status === STATUS.TOO_LARGE);
const edge = await core.check(most.subarray(1));
holds("the limit itself is read", edge.status === STATUS.DONE && edge.text.length === 0, `status ${edge.status}`);

const small = await load(limited(bytes, 64));
const tight = await small.run(session);
holds("a day in 4 MiB: the same, or no memory", tight.status === STATUS.NO_MEMORY || Buffer.compare(Buffer.from(tight.text), Buffer.from(report.text)) === 0);
const none = await small.run(large);
holds("2,000 streams in 4 MiB: no memory is said, and there is no trap", none.status === STATUS.NO_MEMORY && none.memory <= 64 * 65536, `status ${none.status}`);
holds("a file of 8 MiB in 4 MiB: the same", (await small.check(new Uint8Array(8 << 20).fill(97))).status === STATUS.NO_MEMORY);

const stopping = new AbortController(), began = performance.now();
setTimeout(() => stopping.abort(), 200);
const reason = await reasonOf(core.run(large, { tests: true, signal: stopping.signal }));
holds("a run that would take minutes is stopped", reason === "stopped" && performance.now() - began < 60000, reason);
const gone = new AbortController();
gone.abort();
holds("one that was stopped before doesn't begin", await reasonOf(core.run(session, { signal: gone.signal })) === "stopped");
holds("bytes that are no module aren't loaded", (await reasonOf(load(new Uint8Array(8)))).includes("CompileError"));
holds("the worker's text as a file is that of the module", readFileSync(`${folder}/plantbal.worker.js`, "utf8") === workerSource);
holds("the worker's text stands alone", typeof workerSource === "string" && !workerSource.includes("import"));
const compiled = new WebAssembly.Module(bytes);
holds("the module imports nothing", WebAssembly.Module.imports(compiled).length === 0);
const exported = WebAssembly.Module.exports(compiled).map(({ name }) => name).sort().join(" ");
holds("and exports what is called", exported === "memory plantbal_alloc plantbal_check plantbal_dealloc plantbal_run plantbal_session_free "
  + "plantbal_session_new plantbal_session_output plantbal_session_rows", exported);
end();
