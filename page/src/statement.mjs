/** The statement of a block: its verdict in words, tanks, streams, tests, and the bounds and certificates that prove them. */
import { drawing } from "./drawing.mjs";
import { h, table } from "./dom.mjs";
import { numberOf } from "./report.mjs";
import { say, signedDecimal, signedTonnes, thousandths, tonnes, whole } from "./words.mjs";

const CLASS_SIGNS = { redundant: "●", nonredundant: "○", observable: "△", unobservable: "?" };

const isTank = ({ name, from }) => name === from;
const has = (row) => row.class !== "unobservable";

/** Returns a class with its sign, and what it means when it is pointed at. */
export function classOf(kind) {
  if (!(kind in CLASS_SIGNS)) return kind;
  return h("span", { class: kind, title: say(`about_${kind}`) }, `${CLASS_SIGNS[kind]} ${say(`c_${kind}`)}`);
}

// The adjustment of a measured stream in grams, and in standard deviations.
function moved({ value, variance, flow }) {
  const [measured, spread, booked] = [value, variance, flow].map(numberOf);
  if (measured === null || booked === null) return [null, null];
  const grams = booked - measured;
  return [grams, spread !== null && spread > 0n ? Number(grams) / Math.sqrt(Number(spread)) : null];
}

function tanksOf(rows) {
  if (rows.length === 0) return null;
  const columns = [
    { head: say("tank"), name: "name" }, { head: say("gain_measured"), number: true }, { head: say("adjustment"), number: true },
    { head: say("in_sd"), number: true }, { head: say("gain_booked"), number: true, name: "booked" }, { head: say("class"), name: "class" },
  ];
  return [h("h3", {}, say("tanks")), table(columns, rows.map((row) => {
    const [grams, deviations] = moved(row);
    return [row.name, signedTonnes(numberOf(row.value)), signedTonnes(grams), signedDecimal(deviations),
      has(row) ? signedTonnes(numberOf(row.flow)) : "", classOf(row.class)];
  }))];
}

function streamsOf(rows, marked) {
  if (rows.length === 0) return null;
  const columns = [
    { head: say("stream"), name: "name" }, { head: say("way"), name: "way" }, { head: say("measured"), number: true },
    { head: say("adjustment"), number: true }, { head: say("in_sd"), number: true }, { head: say("booked"), number: true, name: "booked" },
    { head: say("class"), name: "class" },
  ];
  const cells = rows.map((row) => {
    const [grams, deviations] = moved(row);
    return [row.name, `${row.from} → ${row.to}`, tonnes(numberOf(row.value)), signedTonnes(grams), signedDecimal(deviations),
      tonnes(numberOf(row.flow)), classOf(row.class)];
  });
  return [h("h3", {}, say("streams")),
    table(columns, cells, { classes: (i) => (marked.streams.includes(rows[i].name) ? "of-fault" : "") })];
}

function withoutOf(rows) {
  if (rows.length === 0) return null;
  const columns = [{ head: say("stream"), name: "name" }, { head: say("way"), name: "way" }, { head: say("along"), name: "wide" }, { head: say("class"), name: "class" }];
  return [h("h3", {}, say("without")), h("p", { class: "note" }, say("without_said")),
    table(columns, rows.map((row) => [row.name, `${row.from} → ${row.to}`, row.parts, classOf(row.class)]))];
}

function testsOf(block) {
  const rows = [...block.all("global"), ...block.all("nodal"), ...block.all("measure")];
  if (rows.length === 0) return null;
  const columns = [
    { head: say("test_of"), name: "name" }, { head: say("statistic"), number: true }, { head: say("critical"), number: true },
    { head: say("verdict") },
  ];
  const verdict = (word) => h("span", { class: word === "reject" ? "bad-word" : null }, ["accept", "reject", "undecided", "nocritical", "notest"].includes(word) ? say(`v_${word}`) : word);
  const between = ({ low, high }) => [numberOf(low), numberOf(high)].map(thousandths).filter(Boolean).join(" – ");
  const cells = [
    ...block.all("global").map((row) => ["global", between(block.one("solved") ?? {}), thousandths(numberOf(row.critical)), verdict(row.verdict)]),
    ...block.all("nodal").map((row) => [row.node, nodalStatistic(row), thousandths(numberOf(row.critical)), verdict(row.verdict)]),
    ...block.all("measure").map((row) => [row.stream, between(row), thousandths(numberOf(row.critical)), verdict(row.verdict)]),
  ];
  return h("details", {}, h("summary", {}, `${say("tests")} (${whole(rows.length)})`), table(columns, cells));
}

// The square of the net over its variance, in thousandths and rounded down.
function nodalStatistic({ net, variance }) {
  const [sum, spread] = [numberOf(net), numberOf(variance)];
  return sum === null || spread === null || spread <= 0n ? "" : thousandths((1000n * sum * sum) / spread);
}

function proofOf(rows) {
  const columns = [
    { head: say("stream"), name: "name" }, { head: say("least_from"), number: true }, { head: say("least_to"), number: true },
    { head: say("from"), number: true }, { head: say("to"), number: true }, { head: say("certificate"), name: "wide" },
  ];
  const certificate = ({ shape, side, parts }) => (shape === "cut" ? say("cut_of", { side, parts }) : say("cycle_of", { parts }));
  return h("details", {}, h("summary", {}, say("bounds")), h("p", { class: "note" }, say("bounds_said")),
    table(columns, rows.map((row) => [row.name, ...["least_lo", "least_hi", "lo", "hi"].map((name) => tonnes(numberOf(row[name]))), certificate(row)])));
}

/** Returns what the tests of a block say: a level, a headline and sentences. */
export function headline(block) {
  const solved = block.one("solved"), overall = block.one("global");
  const rejecting = block.all("measure").filter(({ verdict }) => verdict === "reject");
  rejecting.sort((a, b) => (numberOf(b.low) > numberOf(a.low) ? 1 : -1));
  const said = [];
  if (solved !== null) {
    const values = { low: thousandths(numberOf(solved.low)), high: thousandths(numberOf(solved.high)), dof: solved.dof };
    said.push(say(solved.high ? "statistic_between" : "statistic_least", values)
      + (overall?.critical ? ` ${say("critical_is", { critical: thousandths(numberOf(overall.critical)) })}` : ""));
  }
  if (solved?.state !== "converged") return { level: "bad", head: say("unconverged"), said };
  const key = { accept: "accepted", reject: "rejected", undecided: "undecided", nocritical: "nocritical", notest: "notest" }[overall?.verdict] ?? "untested";
  const level = { accepted: "good", rejected: "look", undecided: "look" }[key] ?? "plain";
  if (key === "rejected" && rejecting.length > 0) {
    said.push(say("suspects", { names: rejecting.slice(0, 6).map(({ stream }) => stream).join(", ") }));
    return { level, head: say("suspect_first", { name: rejecting[0].stream }), said };
  }
  return { level, head: say(key), said };
}

/** Returns the figures of a block: its drawing and its tables. */
export function figures(block, marked = { streams: [], nodes: [] }) {
  const rows = block.streams, booked = rows.filter(has);
  return [
    drawing(rows, marked, say("drawing_of", { period: block.period })),
    tanksOf(booked.filter(isTank)),
    streamsOf(booked.filter((row) => !isTank(row)), marked),
    withoutOf(rows.filter((row) => !has(row))),
    testsOf(block),
    rows.length > 0 && proofOf(rows),
  ];
}
