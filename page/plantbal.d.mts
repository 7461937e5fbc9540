/** The proved core of plantbal in JavaScript: `plantbal.mjs`. */

/** How a call ended; the numbers to 6 are those with which the program ends. */
export declare const STATUS: Readonly<{
  /** Everything was done; of a run or a check, nothing is wrong. */
  DONE: 0;
  /** The same, and a row was refused or a block is wrong. */
  DONE_REFUSED: 1;
  /** An option is outside its limits. Nothing was done. */
  USAGE: 2;
  /** There are more bytes than the limit. */
  TOO_LARGE: 5;
  /** Memory ran out. */
  NO_MEMORY: 6;
  BAD_HANDLE: 7;
  SMALL_BUFFER: 8;
  NOT_THERE: 9;
}>;
export type Status = (typeof STATUS)[keyof typeof STATUS];

/** The most bytes of an input. */
export declare const MOST_BYTES: 67108864;

/** The options of a run. */
export interface Options {
  /** The gap in thousandths of a standard deviation: 1 to 1,000,000. */
  gap?: number;
  /** The greatest number of sweeps: 0 to 100,000. */
  sweeps?: number;
  /** How many rounds of elimination: 0 to 20; with any, tests are made. */
  eliminate?: number;
  /** Whether tests are made. */
  tests?: boolean;
  /** The form of the output. */
  form?: "csv" | "json";
}
export declare const OPTIONS: Readonly<Required<Options>>;

/** What stops a call. */
export interface Stopping {
  signal?: AbortSignal;
}

/** What a run or a check answers. */
export interface Answer {
  status: Status;
  /** The output, byte for byte that of the program; empty if the status is above 1. */
  text: Uint8Array;
  /** How long the call took, without the start of its worker. */
  milliseconds: number;
  /** The bytes of memory that its instance had in the end. */
  memory: number;
}

export type Input = Uint8Array | ArrayBuffer | string;

/** What goes wrong without being an answer of the core. */
export declare class PlantbalError extends Error {
  constructor(reason: PlantbalError["reason"], message: string);
  readonly reason: "stopped" | "failed" | "freed" | "memory" | "full" | "usage";
  /** Of `Session.rows`: the codes of the rows that were taken before. */
  codes?: Uint8Array;
}

/** A session in a worker of its own, until it is freed. */
export interface Session {
  /** Takes rows, and gives a code for each: 0, or the number of the cause for which it is refused. */
  rows(input: Input): Promise<Uint8Array>;
  /** What the rows have added to the output since the last call. */
  output(): Promise<Uint8Array>;
  /** Frees the session; what it waits for is rejected with the reason "freed". */
  free(): void;
}

/** The core, compiled once. */
export interface Core {
  /** Judges the blocks of a report as `plantbal check` does. */
  check(input: Input, choices?: Stopping): Promise<Answer>;
  /** Answers the rows of a session as `plantbal run` does. */
  run(input: Input, options?: Options & Stopping): Promise<Answer>;
  /** A session that takes rows block by block. */
  session(options?: Options): Promise<Session>;
}

/** The text of the worker, for a site whose policy allows no worker from a blob; `plantbal.worker.js` has it as a file. */
export declare const workerSource: string;

/**
 * Loads the core from the bytes of `plantbal.wasm`, a response that has them, or a compiled module. With `worker`, workers come from
 * that address, which serves `workerSource`, or from that function; else from a blob.
 */
export declare function load(
  source: BufferSource | Response | WebAssembly.Module | Promise<BufferSource | Response>,
  choices?: { worker?: string | URL | (() => Worker) },
): Promise<Core>;
