/**
 * The proved core of plantbal in JavaScript: runs, checks, and sessions that take rows as they are typed.
 *
 * The core is `plantbal.wasm`, which `make page` builds from the crate that C calls. It answers with the bytes of the program. Each run
 * and each check has a worker and an instance of its own, so nothing of one call is left for the next, and a call is stopped by ending
 * its worker. A session has a worker and an instance until it is freed. Nothing here opens a connection.
 *
 * Works in browsers of 2023 and later, and in node 18 and later.
 */

/** How a call ended; the numbers to 6 are those with which the program ends. */
export const STATUS = Object.freeze({
  DONE: 0, DONE_REFUSED: 1, USAGE: 2, TOO_LARGE: 5, NO_MEMORY: 6, BAD_HANDLE: 7, SMALL_BUFFER: 8, NOT_THERE: 9,
});

/** The most bytes of an input. A longer one is answered with TOO_LARGE before a worker begins. */
export const MOST_BYTES = 67108864;

/** The options that a run has if nothing else is asked for. */
export const OPTIONS = Object.freeze({ gap: 10, sweeps: 5000, eliminate: 0, tests: false, form: "csv" });

/** What goes wrong without being an answer of the core: a stopped call, or a worker that failed. */
export class PlantbalError extends Error {
  /**
   * @param {"stopped" | "failed" | "freed" | "memory" | "full" | "usage"} reason
   * @param {string} message
   */
  constructor(reason, message) {
    super(message);
    this.name = "PlantbalError";
    this.reason = reason;
  }
}

/**
 * What a worker does. It is a function for its text: a worker is made of the text, and shares nothing with the page that made it.
 * The first message has the module and the options of a session, or a request; every message is answered by one.
 */
function inWorker(port) {
  "use strict";
  const DONE = 0, REFUSED = 1, NO_MEMORY = 6, ROOM_FOR_CODES = 65536;
  let core = null; // the exports of the instance
  let handle = 0n; // the two words of the session

  // The memory has another buffer after each growth, so a view is made for each use.
  const bytes = (at, length) => new Uint8Array(core.memory.buffer, Number(at), length);
  const count = (at) => Number(new DataView(core.memory.buffer).getBigUint64(Number(at), true));

  // Lends blocks of memory to a call, and takes them back after it.
  const lending = (call) => {
    const lent = [];
    const lend = (length) => {
      const at = core.plantbal_alloc(BigInt(Math.max(length, 1)));
      if (at === 0n) throw NO_MEMORY;
      lent.push(at);
      return at;
    };
    try {
      return call(lend);
    } catch (fault) {
      if (fault === NO_MEMORY) return { status: NO_MEMORY };
      throw fault;
    } finally {
      for (const at of lent) core.plantbal_dealloc(at);
    }
  };

  const written = (lend, data) => {
    const at = lend(data.length);
    bytes(at, data.length).set(data);
    return at;
  };

  const asked = (lend, options) => {
    const at = lend(20);
    new Uint32Array(core.memory.buffer, Number(at), 5).set(options);
    return at;
  };

  // A handle begins as zeros. It stays until the worker ends.
  const open = () => {
    handle = core.plantbal_alloc(16n);
    if (handle === 0n) return false;
    bytes(handle, 16).fill(0);
    return true;
  };

  // The output that the session has for us: asked first for its length, then for itself.
  const output = () => lending((lend) => {
    const length = lend(8);
    let status = core.plantbal_session_output(handle, lend(1), 0n, length);
    const room = count(length);
    if (status === DONE) return { status, text: new Uint8Array(0) };
    const at = lend(room);
    status = core.plantbal_session_output(handle, at, BigInt(room), length);
    return { status, text: bytes(at, room).slice() };
  });

  const once = (call) => {
    if (!open()) return { status: NO_MEMORY };
    const { status } = lending((lend) => ({ status: call(lend) }));
    if (status > REFUSED) return { status, text: new Uint8Array(0) };
    const answer = output();
    return answer.status === DONE ? { status, text: answer.text } : { status: answer.status, text: new Uint8Array(0) };
  };

  const requests = {
    run: ({ input, options }) => once((lend) =>
      core.plantbal_run(asked(lend, options), written(lend, input), BigInt(input.length), handle)),
    check: ({ input }) => once((lend) => core.plantbal_check(written(lend, input), BigInt(input.length), handle)),
    open: ({ options }) => open()
      ? lending((lend) => ({ status: core.plantbal_session_new(asked(lend, options), handle) }))
      : { status: NO_MEMORY },
    // The whole block, in as many calls as its codes need.
    rows: ({ input }) => lending((lend) => {
      const at = written(lend, input), codes = lend(ROOM_FOR_CODES), taken = lend(8), parts = [];
      for (let skip = 0, status = DONE, n = ROOM_FOR_CODES; n === ROOM_FOR_CODES; skip += n) {
        status = core.plantbal_session_rows(
          handle, at, BigInt(input.length), BigInt(skip), codes, BigInt(ROOM_FOR_CODES), taken);
        n = count(taken);
        parts.push(bytes(codes, n).slice());
        if (status !== DONE) return { status, parts };
      }
      return { status: DONE, parts };
    }),
    output,
  };

  return async ({ module, request }) => {
    if (module) core = (await WebAssembly.instantiate(module, {})).exports;
    const began = performance.now();
    const answer = requests[request.what](request);
    const spent = performance.now() - began;
    port.postMessage({ ...answer, milliseconds: spent, memory: core.memory.buffer.byteLength });
  };
}

/**
 * The text of the worker, for a site whose policy allows no worker from a blob: serve it as a file, and give its address to `load`.
 */
export const workerSource = `"use strict"; const serve = (${inWorker})(globalThis);
onmessage = ({ data }) => serve(data).catch((fault) => postMessage({ failed: String(fault) }));
`;

const nodeSource = `"use strict"; const { parentPort } = require("node:worker_threads"), serve = (${inWorker})(parentPort);
parentPort.on("message", (data) => serve(data).catch((fault) => parentPort.postMessage({ failed: String(fault) })));
`;

const isNode = typeof process === "object" && process.versions?.node !== undefined && typeof Worker === "undefined";

/** A worker that answers one message after the other. */
class Line {
  constructor(worker) {
    this.worker = worker;
    this.waiting = [];
    this.ended = null;
    const take = (data) => {
      const next = this.waiting.shift();
      if (next === undefined) return;
      if (data.failed === undefined) return next.resolve(data);
      // A trap leaves memory half written, so nothing more is asked of this instance.
      const fault = new PlantbalError("failed", data.failed);
      next.reject(fault);
      this.end(fault);
    };
    const fail = (message) => this.end(new PlantbalError("failed", message || "the worker failed"));
    if (isNode) {
      worker.on("message", take);
      worker.on("error", (fault) => fail(String(fault)));
    } else {
      worker.onmessage = ({ data }) => take(data);
      worker.onerror = (event) => { event.preventDefault?.(); fail(event.message); };
      worker.onmessageerror = () => fail("a message couldn't be read");
    }
  }

  ask(message) {
    if (this.ended) return Promise.reject(this.ended);
    return new Promise((resolve, reject) => {
      this.waiting.push({ resolve, reject });
      this.worker.postMessage(message);
    });
  }

  end(why) {
    if (this.ended) return;
    this.ended = why;
    this.worker.terminate();
    for (const { reject } of this.waiting.splice(0)) reject(why);
  }
}

function bytesOf(input) {
  if (typeof input === "string") return new TextEncoder().encode(input);
  if (input instanceof Uint8Array) return input;
  if (input instanceof ArrayBuffer) return new Uint8Array(input);
  throw new TypeError("an input is a Uint8Array, an ArrayBuffer or a string");
}

function wordsOf(options = {}) {
  for (const name of Object.keys(options)) {
    if (!(name in OPTIONS) && name !== "signal") throw new TypeError(`a run has no option ${name}`);
  }
  const { gap, sweeps, eliminate, tests, form } = { ...OPTIONS, ...options };
  const forms = { csv: 0, json: 1 };
  if (!(form in forms)) throw new TypeError("the form is csv or json");
  const numbers = [gap, sweeps, eliminate];
  // What doesn't fit the word of the core would be cut off there, and could become another number.
  if (!numbers.every((each) => Number.isInteger(each) && each >= 0 && each < 2 ** 32)) return null;
  return [...numbers, tests ? 1 : 0, forms[form]];
}

/** The core, compiled once. */
class Core {
  constructor(module, makeWorker) {
    this.module = module;
    this.makeWorker = makeWorker;
  }

  /** Judges the blocks of a report as `plantbal check` does. */
  check(input, { signal } = {}) {
    const data = bytesOf(input);
    if (data.length > MOST_BYTES) return Promise.resolve(tooLarge());
    return this.#once({ what: "check", input: data }, signal);
  }

  /** Answers the rows of a session as `plantbal run` does. */
  run(input, options = {}) {
    const data = bytesOf(input), words = wordsOf(options);
    if (words === null) return Promise.resolve(nothing(STATUS.USAGE));
    if (data.length > MOST_BYTES) return Promise.resolve(tooLarge());
    return this.#once({ what: "run", input: data, options: words }, options.signal);
  }

  /** A session that takes rows block by block. */
  async session(options = {}) {
    const words = wordsOf(options);
    if (words === null) throw new PlantbalError("usage", "an option is outside its limits");
    const line = new Line(this.makeWorker());
    try {
      const { status } = await line.ask({ module: this.module, request: { what: "open", options: words } });
      if (status === STATUS.USAGE) throw new PlantbalError("usage", "an option is outside its limits");
      if (status !== STATUS.DONE) throw new PlantbalError("memory", "there is no memory for a session");
    } catch (fault) {
      line.end(fault);
      throw fault;
    }
    return new Session(line);
  }

  async #once(request, signal) {
    const line = new Line(this.makeWorker());
    const stop = () => line.end(new PlantbalError("stopped", "the call was stopped"));
    if (signal?.aborted) stop();
    signal?.addEventListener("abort", stop);
    try {
      return await line.ask({ module: this.module, request });
    } finally {
      signal?.removeEventListener("abort", stop);
      line.end(new PlantbalError("freed", "the call is over"));
    }
  }
}

const nothing = (status) => ({ status, text: new Uint8Array(0), milliseconds: 0, memory: 0 });
const tooLarge = () => nothing(STATUS.TOO_LARGE);

/** A session: it takes rows, answers each with a code, and hands over what they add to the output. */
class Session {
  #line;

  constructor(line) {
    this.#line = line;
  }

  /** Takes rows, and gives a code for each: 0, or the number of the cause for which it is refused. */
  async rows(input) {
    const data = bytesOf(input);
    const { status, parts = [] } = await this.#line.ask({ request: { what: "rows", input: data } });
    const codes = new Uint8Array(parts.reduce((sum, part) => sum + part.length, 0));
    let at = 0;
    for (const part of parts) {
      codes.set(part, at);
      at += part.length;
    }
    if (status === STATUS.DONE) return codes;
    const memory = status === STATUS.NO_MEMORY;
    const fault = new PlantbalError(memory ? "memory" : "full", memory ? "memory ran out" : "there are too many rows");
    fault.codes = codes; // of the rows that were taken, after which the session stands
    throw fault;
  }

  /** What the rows have added to the output since the last call. */
  async output() {
    const { status, text } = await this.#line.ask({ request: { what: "output" } });
    if (status !== STATUS.DONE) throw new PlantbalError("memory", "there is no memory for the output");
    return text;
  }

  /** Frees the session, and ends what it waits for. */
  free() {
    this.#line.end(new PlantbalError("freed", "the session was freed"));
  }
}

/**
 * Loads the core.
 *
 * @param {BufferSource | Response | WebAssembly.Module | Promise<Response>} source the bytes of plantbal.wasm, or what gives them
 * @param {{ worker?: string | URL | (() => Worker) }} [choices] where the worker's text is served, or what makes a worker
 */
export async function load(source, { worker } = {}) {
  const given = await source;
  let module = given;
  if (typeof Response !== "undefined" && given instanceof Response) {
    if (!given.ok) throw new PlantbalError("failed", `the core wasn't found: ${given.status}`);
    module = await WebAssembly.compile(await given.arrayBuffer());
  } else if (!(given instanceof WebAssembly.Module)) {
    module = await WebAssembly.compile(given);
  }
  if (typeof worker === "function") return new Core(module, worker);
  if (worker !== undefined) return new Core(module, () => new Worker(worker));
  if (isNode) {
    const { Worker: Thread } = await import("node:worker_threads");
    return new Core(module, () => new Thread(nodeSource, { eval: true }));
  }
  const address = URL.createObjectURL(new Blob([workerSource], { type: "text/javascript" }));
  return new Core(module, () => new Worker(address));
}
