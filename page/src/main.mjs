/**
 * The page: takes a file, says what it is, asks the core in a worker, and shows what it answered.
 *
 * What was judged is kept, and shown anew when the language changes. One file is judged at a time; another one ends it.
 */
import { load, MOST_BYTES, OPTIONS, PlantbalError, STATUS } from "../plantbal.mjs";
import { audited, digestOf } from "./bundle.mjs";
import { h } from "./dom.mjs";
import { isJudged, KIND, kindOf } from "./kind.mjs";
import { textOf } from "./records.mjs";
import { takeSessionKinds } from "./refused.mjs";
import { parsed, takeColumns } from "./report.mjs";
import { verdictsOf } from "./verdicts.mjs";
import { banner, bundleView, reportView, sessionView } from "./views.mjs";
import { chooseLanguage, chosenLanguage, LANGUAGES, nameOfLanguage, say, takeWords, whole } from "./words.mjs";
import { ZipFault } from "./zip.mjs";

const at = (id) => document.getElementById(id);
const MIB = 1048576, MOST_CHANGED = 262144;

let core = null, data = null, coreDigest = "";
let stopping = null; // what ends the file that is being judged
let shown = null; // what the result shows: what makes it, and the file

// ---- what is in the page

// Signs of base 85, four bytes in five, which take less room than base 64. The one that could begin a tag is a comma.
const DIGITS = "0123456789ABCDEFGHIJKLMNOPQRSTUVWXYZabcdefghijklmnopqrstuvwxyz!#$%&()*+-;,=>?@^_`{|}~";

function fromDigits(text, length) {
  const values = new Map([...DIGITS].map((sign, value) => [sign, value])), view = new DataView(new ArrayBuffer((text.length / 5) * 4));
  for (let i = 0; i < text.length; i += 5) {
    let word = 0;
    for (let j = 0; j < 5; j += 1) word = word * 85 + values.get(text[i + j]);
    view.setUint32((i / 5) * 4, word);
  }
  return new Uint8Array(view.buffer, 0, length);
}

async function unpackedPart(id) {
  const packed = fromDigits(at(id).textContent.trim(), Number(at(id).dataset.length));
  const stream = new DecompressionStream("gzip"), writer = stream.writable.getWriter();
  writer.write(packed).then(() => writer.close()).catch(() => undefined);
  return new Uint8Array(await new Response(stream.readable).arrayBuffer());
}

async function begin() {
  data = JSON.parse(new TextDecoder().decode(await unpackedPart("data")));
  takeWords(data.words, navigator.languages ?? [navigator.language ?? "en"]);
  takeColumns(data.output, data.without);
  takeSessionKinds(data.session);
  write();
  try {
    const bytes = await unpackedPart("core");
    coreDigest = await digestOf(bytes) ?? say("no_digest");
    core = await load(bytes);
  } catch (fault) {
    refuse("no_core", { why: String(fault.message ?? fault) });
    return;
  }
  write();
  document.documentElement.dataset.ready = "yes";
}

// ---- what is written anew with each language

function write() {
  document.documentElement.lang = chosenLanguage();
  for (const element of document.querySelectorAll("[data-say]")) {
    element.textContent = say(element.dataset.say, { most: whole(MOST_BYTES / MIB) });
  }
  document.title = `plantbal: ${say("title")}`;
  at("languages").replaceChildren(...LANGUAGES.map((each) => h("button", {
    type: "button", lang: each, "aria-pressed": String(each === chosenLanguage()),
    onclick: () => { chooseLanguage(each); write(); show(); },
  }, nameOfLanguage(each))));
  at("samples").replaceChildren(...Object.keys(data.samples).map((name) => h("button", {
    type: "button", class: "plain", "data-sample": name, onclick: () => judge(sampleFile(name)),
  }, say(`sample_${name}`))));
  const { version, commit, way } = data.build;
  at("core_is").replaceChildren(...[
    ["core", say("core_value", { version, commit })], ["core_digest", h("span", { class: "hash", id: "core_sum" }, coreDigest)],
  ].flatMap(([key, value]) => [h("dt", {}, say(key)), h("dd", {}, value)]));
  at("way").textContent = `${say(way === "direct" ? "core_way_direct" : "core_way")}. ${say("page_digest")}`;
}

function sampleFile(name) {
  const { file, base64 } = data.samples[name];
  return new File([Uint8Array.from(atob(base64), (sign) => sign.charCodeAt(0))], file);
}

function show() {
  if (shown === null) return;
  at("result").replaceChildren(...[shown.make()].flat(Infinity).filter(Boolean));
}

function refuse(key, values = {}) {
  shown = { make: () => banner("bad", say(key, valuesSaid(values))) };
  finish();
}

const valuesSaid = (values) => Object.fromEntries(Object.entries(values).map(([name, value]) => [name, typeof value === "number" ? whole(value) : value]));

function finish() {
  stopping = null;
  at("work").hidden = true;
  document.body.classList.toggle("judged", shown !== null);
  show();
  document.documentElement.dataset.done = String(Number(document.documentElement.dataset.done ?? 0) + 1);
  at("headline")?.focus({ preventScroll: true });
  at("result").scrollIntoView?.({ block: "start" });
}

// ---- a file

function work(key, name) {
  const began = performance.now();
  at("doing").textContent = say(key, { name });
  at("work").hidden = false;
  at("seconds").textContent = "";
  const tick = setInterval(() => {
    const n = Math.floor((performance.now() - began) / 1000);
    at("seconds").textContent = n > 0 ? say("seconds", { n: whole(n) }) : "";
    at("long").hidden = n < 5;
  }, 250);
  return () => { clearInterval(tick); at("long").hidden = true; };
}

async function bytesOfFile(file) {
  try {
    return new Uint8Array(await file.arrayBuffer());
  } catch (fault) {
    refuse("not_readable", { why: fault.name });
    return null;
  }
}

/** Judges a file, whatever it is. */
async function judge(file) {
  stopping?.abort();
  const stop = new AbortController();
  stopping = stop;
  shown = null;
  at("result").replaceChildren();
  if (core === null) return refuse("no_core", { why: "" });
  if (file.size > MOST_BYTES) return refuse("not_large", { most: MOST_BYTES });
  const bytes = await bytesOfFile(file);
  if (bytes === null || stop.signal.aborted) return undefined;
  const kind = kindOf(bytes, data.kinds, MOST_BYTES);
  if (!isJudged(kind)) return refuse(`not_${kind}`, { most: MOST_BYTES });
  const done = work({ [KIND.REPORT]: "working_check", [KIND.SESSION]: "working_run", [KIND.BUNDLE]: "working_bundle" }[kind], file.name);
  try {
    const judges = { [KIND.REPORT]: judgeReport, [KIND.SESSION]: judgeSession, [KIND.BUNDLE]: judgeBundle };
    const found = await judges[kind](bytes, stop.signal);
    if (stop.signal.aborted) return undefined;
    const digest = await digestOf(bytes);
    shown = { make: () => [aboutFile(file, bytes, digest, found), kind === KIND.BUNDLE ? null : changing(file, bytes), found.make()] };
    finish();
  } catch (fault) {
    if (stopping === stop) fail(fault);
  } finally {
    done();
  }
  return undefined;
}

function fail(fault) {
  if (fault instanceof ZipFault) refuse(fault.reason, fault.values);
  else if (fault instanceof PlantbalError && fault.reason === "stopped") refuse("stopped");
  else if (fault instanceof PlantbalError && fault.reason === "memory") refuse("no_memory");
  else if (fault instanceof RangeError) refuse("no_memory"); // what a browser says if an array finds no room
  else if (fault instanceof PlantbalError && fault.reason === "usage") refuse("option_wrong");
  else refuse("failed", { why: String(fault.message ?? fault) });
}

function answered(answer) {
  if (answer.status <= STATUS.DONE_REFUSED) return answer;
  if (answer.status === STATUS.NO_MEMORY) throw new PlantbalError("memory", "memory ran out");
  if (answer.status === STATUS.USAGE) throw new PlantbalError("usage", "an option is outside its limits");
  throw new PlantbalError("failed", `status ${answer.status}`);
}

function checked(bytes, { text: said }) {
  const text = textOf(bytes);
  return { text, report: parsed(text), verdicts: verdictsOf(new TextDecoder().decode(said)) };
}

async function judgeReport(bytes, signal) {
  const answer = answered(await core.check(bytes, { signal }));
  const judged = checked(bytes, answer);
  return { ...timesOf(answer), saved: { text: answer.text, ending: "check.csv", key: "save_verdicts" }, make: () => reportView(judged) };
}

function chosenOptions() {
  const numbers = Object.fromEntries(["gap", "sweeps", "eliminate"].map((name) => [name, Number(at(name).value)]));
  return { ...OPTIONS, ...numbers, tests: at("tests").checked };
}

async function judgeSession(bytes, signal) {
  const answer = answered(await core.run(bytes, { ...chosenOptions(), signal }));
  const text = textOf(bytes), output = parsed(new TextDecoder().decode(answer.text));
  const codes = new Map(output.between.filter(({ kind }) => kind === "refused").map(({ fields }) => [Number(fields[1]), Number(fields[2])]));
  const check = output.blocks.length > 0 ? await core.check(answer.text, { signal }) : { status: STATUS.TOO_LARGE };
  const checkedWell = check.status <= STATUS.DONE_REFUSED ? check.status === STATUS.DONE : null;
  const judged = { text, codes, output, checkedWell };
  return { ...timesOf(answer), saved: { text: answer.text, ending: "out.csv", key: "save_output" }, make: () => sessionView(judged) };
}

async function judgeBundle(bytes, signal) {
  let spent = 0, memory = 0;
  const counted = (answer) => { spent += answer.milliseconds; memory = Math.max(memory, answer.memory); return answer; };
  const audit = await audited(bytes, {
    run: async (session, options) => counted(await core.run(session, { ...options, signal })),
    check: async (output) => counted(answered(await core.check(output, { signal }))),
  });
  const judged = { audit, ...checked(audit.output, audit.checked) };
  return { milliseconds: spent, memory, saved: { text: audit.output, ending: "output.csv", key: "save_output" }, make: () => bundleView(judged) };
}

const timesOf = ({ milliseconds, memory }) => ({ milliseconds, memory });

function aboutFile(file, bytes, digest, found) {
  const parts = [
    ["file", h("b", {}, file.name)], ["size", say("bytes", { n: whole(bytes.length) })],
    ["digest", h("span", { class: "hash", id: "sum" }, digest ?? say("no_digest"))],
    ["took", h("span", { id: "took", "data-ms": Math.ceil(found.milliseconds) }, say("took_value", { ms: whole(Math.ceil(found.milliseconds)), mib: whole(Math.ceil(found.memory / MIB)) }))],
  ];
  return h("div", {},
    h("dl", { class: "head" }, parts.flatMap(([key, value]) => [h("dt", {}, say(key)), h("dd", {}, value)])),
    h("p", { class: "tools no-print" },
      h("button", { type: "button", id: "save", onclick: () => save(found.saved, file.name) }, say(found.saved.key)), " ",
      h("button", { type: "button", onclick: () => window.print() }, say("print")), " ",
      h("button", { type: "button", onclick: () => at("pick").click() }, say("another"))));
}

// A copy of the text, to be changed and judged again: so that a reader sees what a row does.
function changing(file, bytes) {
  if (bytes.length > MOST_CHANGED) return null;
  const area = h("textarea", { id: "text", rows: "14", spellcheck: "false", "aria-label": say("change") });
  area.value = textOf(bytes);
  const name = file.name.startsWith(`${say("changed")} `) ? file.name : `${say("changed")} ${file.name}`;
  return h("details", { class: "no-print", id: "change" }, h("summary", {}, say("change")), h("p", { class: "note" }, say("change_said")), area,
    h("p", {}, h("button", { type: "button", id: "judge", onclick: () => judge(new File([area.value], name)) }, say("judge_text"))));
}

function save({ text, ending }, name) {
  const address = URL.createObjectURL(new Blob([text], { type: "text/csv" }));
  const link = h("a", { href: address, download: `${name.replace(/\.(csv|zip)$/i, "")}.${ending}` });
  link.click();
  setTimeout(() => URL.revokeObjectURL(address), 60000);
}

// ---- what the reader does

function dropped(event) {
  event.preventDefault();
  document.body.classList.remove("over");
  const items = [...(event.dataTransfer?.items ?? [])];
  if (items.some((item) => item.webkitGetAsEntry?.()?.isDirectory)) return refuse("not_folder");
  return taken([...(event.dataTransfer?.files ?? [])]);
}

function taken(files) {
  if (files.length > 1) return refuse("not_several", { n: files.length });
  return files.length === 1 ? judge(files[0]) : undefined;
}

// The policy refuses a connection before it is made, and says so.
function tryNetwork() {
  const line = at("network");
  let refused = false;
  const heard = ({ effectiveDirective }) => { refused ||= effectiveDirective === "connect-src"; };
  document.addEventListener("securitypolicyviolation", heard);
  fetch("https://plantbal.invalid/").catch(() => undefined).finally(() => setTimeout(() => {
    document.removeEventListener("securitypolicyviolation", heard);
    line.textContent = say(refused ? "network" : "network_open");
    line.className = refused ? "good-word" : "bad-word";
  }, 50));
}

at("pick").addEventListener("change", ({ target }) => {
  taken([...target.files]);
  target.value = ""; // so that the same file can be chosen again
});
at("stop").addEventListener("click", () => {
  stopping?.abort();
  if (!at("work").hidden) refuse("stopped");
});
at("about").addEventListener("toggle", () => at("about").open && tryNetwork());
addEventListener("dragover", (event) => { event.preventDefault(); document.body.classList.add("over"); });
addEventListener("dragleave", (event) => event.relatedTarget === null && document.body.classList.remove("over"));
addEventListener("drop", dropped);
addEventListener("keydown", (event) => event.key === "Escape" && !at("work").hidden && at("stop").click());

begin();
