/**
 * The files of a bundle, unpacked by the browser. Only a zip that every reader of zips reads alike is taken: walked from its first byte
 * to its last one, the heads before its files say what its directory says, and nothing stands before, between or after them. It may be
 * packed by another packer, as mail gateways do: in another order, with other times, with sizes that stand after the bytes of a file.
 */

/** The files that each bundle has, in order, and the most bytes that each may have. */
export const FILES = Object.freeze({
  "session.csv": 67108864, "output.csv": 268435456, "summary.txt": 67108864, "manifest.json": 67108864, SHA256SUMS: 65536,
});
/** The files of a book that a bundle may have between the output and the summary. */
export const CARRIED = Object.freeze({ "measured.csv": 268435456, "summed.csv": 67108864 });
export const SEAL = "SHA-256 of the bytes before this comment: ";

/** Why a zip can't be read, as a key of the words. */
export class ZipFault extends Error {
  constructor(reason, values = {}) {
    super(reason);
    this.reason = reason;
    this.values = values;
  }
}

const MOST_OF_FILE = Object.freeze({ ...FILES, ...CARRIED });
const HEAD = 30, ENTRY = 46, END = 22;
const STORED = 0, DEFLATED = 8, DESCRIBED = 0x0008, ALLOWED_FLAGS = 0x080e; // sizes after the bytes; speed of packing, UTF-8
const RENAMING = [0x0001, 0x7075, 0x6375]; // extra fields that give a file another size, name or comment

/**
 * Returns the files of a bundle, its comment, and what some readers may take for something else.
 *
 * @returns {Promise<{ files: Map<string, Uint8Array>, comment: string, sealedBytes: number, loose: string }>}
 */
export async function unpacked(bytes) {
  const end = endOf(bytes);
  const view = new DataView(bytes.buffer, bytes.byteOffset, bytes.byteLength);
  const count = view.getUint16(end + 10, true), begin = view.getUint32(end + 16, true);
  const entries = directory(view, bytes, begin, end, count);
  const names = entries.map(({ name }) => name);
  const [first, second, ...rest] = Object.keys(FILES);
  const wanted = [first, second, ...Object.keys(CARRIED).filter((name) => names.includes(name)), ...rest];
  if ([...names].sort().join() !== [...wanted].sort().join()) throw new ZipFault("zip_other", { names: names.join(", ") || "—" });
  const files = new Map();
  let at = 0, loose = "";
  for (const entry of entries) {
    const found = local(view, bytes, entry);
    if (entry.offset !== at || !found.fits) loose ||= entry.name;
    files.set(entry.name, await content(bytes.subarray(found.from, found.from + entry.packed), entry));
    at = found.end;
  }
  if (at !== begin) loose ||= names.at(-1);
  const comment = new TextDecoder("latin1").decode(bytes.subarray(end + END));
  return { files: new Map(wanted.map((name) => [name, files.get(name)])), comment, sealedBytes: end + END, loose };
}

// The end of the directory: the last place whose comment reaches to the end of the file.
function endOf(bytes) {
  for (let at = bytes.length - END; at >= Math.max(0, bytes.length - END - 65535); at -= 1) {
    if (bytes[at] === 0x50 && bytes[at + 1] === 0x4b && bytes[at + 2] === 5 && bytes[at + 3] === 6
      && at + END + bytes[at + 20] + 256 * bytes[at + 21] === bytes.length) return at;
  }
  throw new ZipFault("zip_cut", { name: "zip" });
}

function directory(view, bytes, begin, end, count) {
  const entries = [];
  let at = begin;
  for (let i = 0; i < count; i += 1) {
    if (at + ENTRY > end || view.getUint32(at, true) !== 0x02014b50) throw new ZipFault("zip_cut", { name: "zip" });
    const length = view.getUint16(at + 28, true);
    entries.push({
      name: new TextDecoder().decode(bytes.subarray(at + ENTRY, at + ENTRY + length)),
      flags: view.getUint16(at + 8, true), method: view.getUint16(at + 10, true), sum: view.getUint32(at + 16, true),
      packed: view.getUint32(at + 20, true), size: view.getUint32(at + 24, true), offset: view.getUint32(at + 42, true),
      extra: bytes.subarray(at + ENTRY + length, at + ENTRY + length + view.getUint16(at + 30, true)),
    });
    at += ENTRY + length + view.getUint16(at + 30, true) + view.getUint16(at + 32, true);
  }
  if (at !== end) throw new ZipFault("zip_cut", { name: "zip" });
  return entries;
}

// Where a file's bytes begin and where its entry ends, and whether its head says what the directory says.
function local(view, bytes, entry) {
  const at = entry.offset;
  if (at + HEAD > bytes.length || view.getUint32(at, true) !== 0x04034b50) throw new ZipFault("zip_cut", { name: entry.name });
  const length = view.getUint16(at + 26, true), extra = view.getUint16(at + 28, true), from = at + HEAD + length + extra;
  if (from + entry.packed > bytes.length) throw new ZipFault("zip_cut", { name: entry.name });
  const flags = view.getUint16(at + 6, true), isDescribed = (flags & DESCRIBED) !== 0, wanted = [entry.sum, entry.packed, entry.size];
  const sizes = [14, 18, 22].map((place) => view.getUint32(at + place, true));
  const name = new TextDecoder().decode(bytes.subarray(at + HEAD, at + HEAD + length));
  const fits = name === entry.name && view.getUint16(at + 8, true) === entry.method && flags === entry.flags && (flags & ~ALLOWED_FLAGS) === 0
    && sizes.every((size, i) => size === wanted[i] || (isDescribed && size === 0))
    && (entry.method === DEFLATED || sizes[1] === entry.packed) // of stored bytes a reader has to know the size before them
    && renamesNothing(bytes.subarray(from - extra, from)) && renamesNothing(entry.extra);
  const end = from + entry.packed;
  if (!isDescribed) return { from, end, fits };
  const marked = end + 16 <= bytes.length && view.getUint32(end, true) === 0x08074b50 ? 4 : 0;
  const described = end + marked + 12 <= bytes.length && wanted.every((each, i) => view.getUint32(end + marked + 4 * i, true) === each);
  return { from, end: end + marked + 12, fits: fits && described };
}

// Whether extra fields are whole, and none gives another size or name.
function renamesNothing(extra) {
  let at = 0;
  while (at + 4 <= extra.length) {
    if (RENAMING.includes(extra[at] + 256 * extra[at + 1])) return false;
    at += 4 + extra[at + 2] + 256 * extra[at + 3];
  }
  return at === extra.length;
}

async function content(packed, entry) {
  const most = MOST_OF_FILE[entry.name];
  if (entry.size > most) throw new ZipFault("zip_large", { name: entry.name, most });
  let found;
  if (entry.method === STORED) found = packed.slice();
  else if (entry.method === DEFLATED) found = await inflated(packed, entry);
  else throw new ZipFault("zip_cut", { name: entry.name });
  if (found.length !== entry.size || crc32(found) !== entry.sum) throw new ZipFault("zip_sum", { name: entry.name });
  return found;
}

// Unpacks no more than the directory says: a small zip may hold more than a memory does.
async function inflated(packed, entry) {
  const stream = new DecompressionStream("deflate-raw"), writer = stream.writable.getWriter(), reader = stream.readable.getReader();
  const writing = writer.write(packed).then(() => writer.close());
  writing.catch(() => undefined); // the reader says it too
  const found = new Uint8Array(entry.size);
  let at = 0;
  try {
    for (;;) {
      const { done, value } = await reader.read();
      if (done) break;
      if (at + value.length > entry.size) throw new ZipFault("zip_sum", { name: entry.name });
      found.set(value, at);
      at += value.length;
    }
    await writing;
  } catch (fault) {
    await reader.cancel().catch(() => undefined);
    throw fault instanceof ZipFault ? fault : new ZipFault("zip_cut", { name: entry.name });
  }
  return found.subarray(0, at);
}

const CRC = Uint32Array.from({ length: 256 }, (_, n) => {
  let c = n;
  for (let i = 0; i < 8; i += 1) c = c & 1 ? (c >>> 1) ^ 0xedb88320 : c >>> 1;
  return c;
});

function crc32(bytes) {
  let c = 0xffffffff;
  for (const byte of bytes) c = (c >>> 8) ^ CRC[(c ^ byte) & 255];
  return (c ^ 0xffffffff) >>> 0;
}
