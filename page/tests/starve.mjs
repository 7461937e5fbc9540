/**
 * Refuses each allocation of a run and of a check in turn, in one instance: it is answered with the status of no memory, no block is
 * left, and the next call is right. Then blocks are taken, resized and freed by lot, and none may touch another.
 *
 *     node starve.mjs FOLDER SESSION
 */
import { readFileSync } from "node:fs";
import { end, holds, moduleOf } from "./core.mjs";

const [folder, session] = process.argv.slice(2);
const NO_MEMORY = 6;
const module = moduleOf(`${folder}/tried.wasm`);

function instance() {
  const x = new WebAssembly.Instance(module, {}).exports;
  return { x, bytes: (at, n) => new Uint8Array(x.memory.buffer, Number(at), n) };
}

function starved(what, input) {
  const { x, bytes } = instance();
  const at = x.plantbal_alloc(BigInt(input.length)), handle = x.plantbal_alloc(16n), asked = x.plantbal_alloc(20n), count = x.plantbal_alloc(8n);
  const out = x.plantbal_alloc(1n << 20n), kept = x.plantbal_blocks();
  bytes(at, input.length).set(input);
  new Uint32Array(x.memory.buffer, Number(asked), 5).set([500, 5000, 3, 1, 0]);
  const call = (refused) => {
    bytes(handle, 16).fill(0);
    x.plantbal_refuse(refused);
    const status = what === "run"
      ? x.plantbal_run(asked, at, BigInt(input.length), handle) : x.plantbal_check(at, BigInt(input.length), handle);
    const wanted = x.plantbal_asked();
    x.plantbal_refuse(0n);
    let text = "";
    if (status <= 1) {
      x.plantbal_session_output(handle, out, 1n << 20n, count);
      const n = Number(new DataView(x.memory.buffer).getBigUint64(Number(count), true));
      text = Buffer.from(bytes(out, n)).toString("latin1");
    }
    x.plantbal_session_free(handle);
    return { status, text, wanted, left: x.plantbal_blocks() - kept };
  };
  const right = call(0n);
  let answered = 0, left = 0, after = 0;
  for (let i = 1n; i <= right.wanted; i += 1n) {
    const found = call(i);
    answered += found.status === NO_MEMORY;
    left += found.left !== 0n;
    after += call(0n).text === right.text;
  }
  const n = Number(right.wanted);
  holds(`${n} allocations of a ${what} refused in turn`, right.status <= 1 && answered === n && left === 0 && after === n && right.left === 0n,
    `${answered} answered, ${left} with blocks left, ${after} right afterwards`);
}

// Each block holds its number in all its bytes; a block that touched another would lose it.
function heap() {
  const { x, bytes } = instance(), live = [];
  let state = 7, wrong = 0;
  const lot = (n) => { state = (state * 1103515245 + 12345) & 0x7fffffff; return state % n; };
  const size = () => (lot(4) ? lot(300) + 1 : lot(40000) + 1);
  const isWhole = ({ at, n, mark }) => bytes(at, n).every((byte) => byte === mark);
  for (let i = 0; i < 40000; i += 1) {
    const way = lot(5), one = live.length ? live[lot(live.length)] : null;
    if (one === null || (way < 2 && live.length < 400)) {
      const n = size(), at = x.plantbal_alloc(BigInt(n)), mark = i & 255;
      wrong += at === 0n || at % 16n !== 0n;
      bytes(at, n).fill(mark);
      live.push({ at, n, mark });
    } else if (way < 4) {
      wrong += !isWhole(one);
      const n = size(), at = x.plantbal_resize(one.at, BigInt(n));
      wrong += at === 0n || at % 16n !== 0n || !isWhole({ at, n: Math.min(n, one.n), mark: one.mark });
      bytes(at, n).fill(one.mark);
      Object.assign(one, { at, n });
    } else {
      wrong += !isWhole(one);
      x.plantbal_dealloc(one.at);
      live.splice(live.indexOf(one), 1);
    }
  }
  wrong += live.filter((one) => !isWhole(one)).length;
  for (const { at } of live) x.plantbal_dealloc(at);
  holds("40,000 blocks taken, resized and freed by lot, none touches another", wrong === 0 && x.plantbal_blocks() === 0n, `${wrong} wrong`);
  const far = x.plantbal_alloc(1n << 41n), much = x.plantbal_alloc(1n << 33n);
  holds("what no memory holds is refused", far === 0n && much === 0n && x.plantbal_blocks() === 0n);
}

const data = readFileSync(session);
starved("run", data);
starved("check", reportOf(data));
heap();
end();

function reportOf(input) {
  const { x, bytes } = instance(), at = x.plantbal_alloc(BigInt(input.length)), handle = x.plantbal_alloc(16n), asked = x.plantbal_alloc(20n), count = x.plantbal_alloc(8n);
  bytes(handle, 16).fill(0);
  bytes(at, input.length).set(input);
  new Uint32Array(x.memory.buffer, Number(asked), 5).set([10, 5000, 0, 1, 0]);
  x.plantbal_run(asked, at, BigInt(input.length), handle);
  const out = x.plantbal_alloc(1n << 20n);
  x.plantbal_session_output(handle, out, 1n << 20n, count);
  return bytes(out, Number(new DataView(x.memory.buffer).getBigUint64(Number(count), true))).slice();
}
