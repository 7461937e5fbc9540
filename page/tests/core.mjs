/** The core as its worker asks it, without a thread: the worker's own text in a context of its own, so that thousands of calls are quick. */
import { readFileSync } from "node:fs";
import vm from "node:vm";
import { workerSource } from "../plantbal.mjs";

/** Returns what asks a new instance of a module, as a worker does: a request gives an answer. */
export function asker(module) {
  let answer = null;
  const context = vm.createContext({
    WebAssembly, performance, Uint8Array, Uint32Array, DataView, BigInt, Number, Math,
    postMessage: (data) => answer(data),
  });
  vm.runInContext(workerSource, context);
  return (request, isNew = true) => new Promise((resolve) => {
    answer = resolve;
    context.onmessage({ data: { module: isNew ? module : undefined, request } });
  });
}

/** Returns the module of a file. */
export const moduleOf = (path) => new WebAssembly.Module(readFileSync(path));

/** The options of a run by its words; null if the words are none of a run. */
export function optionsOf(words) {
  const options = [10, 5000, 0, 0, 0], places = { "--gap": 0, "--sweeps": 1, "--eliminate": 2 };
  if (words[0] !== "run") return null;
  for (let i = 1; i < words.length; i += 1) {
    if (words[i] === "--tests") options[3] = 1;
    else if (words[i] === "--format") options[4] = { csv: 0, json: 1 }[words[i += 1]] ?? null;
    else if (words[i] in places) options[places[words[i]]] = Number(words[i += 1]);
    else return null;
  }
  return options.every((each) => Number.isInteger(each) && each >= 0) ? options : null;
}

let failures = 0;

/** Says whether something holds, and counts what doesn't. */
export function holds(what, is, more = "") {
  if (!is) failures += 1;
  if (!is || !what.startsWith("·")) console.log(`page: ${is ? "" : "WRONG: "}${what}${is || !more ? "" : `: ${more}`}`);
}

/** Ends with 1 if something didn't hold. */
export function end() {
  process.exitCode = failures > 0 ? 1 : 0;
}
