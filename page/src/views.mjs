/** What the page shows of a judged file: of a report, of a session, and of a bundle. Each is made anew when the language changes. */
import { STEP } from "./bundle.mjs";
import { h, picture, table } from "./dom.mjs";
import { records } from "./records.mjs";
import { toldRefusals } from "./refused.mjs";
import { valuesOf } from "./report.mjs";
import { classOf, figures, headline } from "./statement.mjs";
import { told, unreadable, VERDICT } from "./verdicts.mjs";
import { say, whole } from "./words.mjs";

/** How many blocks are shown at once, how many refused rows are said, and how many blocks show their figures without being asked. */
const BLOCKS = 20, ROWS = 100, OPEN = 3;
const LEVEL_SIGNS = { good: "✓", look: "!", bad: "✗", plain: "–" };

/** Returns a verdict: a headline with its sign, and sentences. */
export function banner(level, head, said = []) {
  return h("div", { class: `verdict ${level}` }, h("span", { class: "sign", "aria-hidden": "true" }, LEVEL_SIGNS[level]),
    h("h2", { class: "headline", id: "headline", tabindex: "-1" }, head), said.map((each) => h("p", {}, each)));
}

// A part of the page whose content is made when it is opened for the first time.
function lazily(summary, make, { open = false, name = null } = {}) {
  const details = h("details", { class: name, open }, h("summary", {}, summary));
  const fill = () => {
    if (details.children.length === 1) details.append(...[make()].flat(Infinity).filter(Boolean));
  };
  if (open) fill();
  details.addEventListener("toggle", () => details.open && fill());
  return details;
}

// The first of many parts, and a button for the next ones.
function some(parts, most, more) {
  const list = h("div", {}, parts.slice(0, most).map((make) => make()));
  if (parts.length <= most) return list;
  let shown = most;
  const button = h("button", { type: "button", class: "plain no-print", onclick: () => {
    list.append(...parts.slice(shown, shown + most).map((make) => make()));
    shown += most;
    if (shown >= parts.length) button.remove();
    else button.textContent = more(parts.length - shown);
  } }, more(parts.length - shown));
  return [list, button];
}

const leaves = () => h("details", { class: "leaves" }, h("summary", {}, say("leaves")),
  h("ul", {}, [1, 2, 3, 4].map((n) => h("li", {}, say(`leaves_${n}`)))));

const nameOf = ({ period, round }) => (round > 0 ? say("block_round", { period, round }) : say("block", { period }));

// ---- a report

function reportBanner(verdicts, cut, text, found) {
  const judged = verdicts.filter(({ verdict }) => verdict !== VERDICT.UNREADABLE);
  const wrong = judged.filter(({ verdict }) => verdict === VERDICT.NO).length, n = judged.length;
  if (n === 0 && cut === null) return banner("bad", say("nothing"), [say("nothing_said")]);
  const said = [];
  if (wrong > 0) said.push(say("wrong_said"));
  if (cut !== null) said.push(unreadable(found, cut, text).head);
  if (wrong === 0 && cut === null) {
    return banner("good", n === 1 ? say("all_right_1") : say("all_right", { n: whole(n) }), [say("right_said")]);
  }
  const heads = [];
  if (wrong > 0 && n === 1) heads.push(say("only_wrong"));
  else if (wrong > 0) heads.push(wrong === 1 ? say("some_wrong_1", { n: whole(n) }) : say("some_wrong", { wrong: whole(wrong), n: whole(n) }));
  if (cut !== null) heads.push(say("cut"));
  return banner("bad", heads.join(". "), said);
}

function wrongCard(block, verdict, text, open) {
  const said = told(block, verdict, text);
  const columns = [{ head: say("the_test"), name: "name" }, { head: say("place") }, { head: say("stated"), number: true }, { head: say("found"), number: true }];
  return h("section", { class: "block bad" },
    h("h3", {}, h("span", { class: "chip bad" }, `✗ ${say("wrong")}`), " ", nameOf(verdict)),
    h("p", { class: "sentence" }, said.sentence),
    table(columns, [[said.test, said.place, said.stated, said.found]], { name: "verdicts" }),
    said.picture && picture(said.picture),
    lazily(say("show_block"), () => figures(block, said.marked), { open }));
}

function rightCard(block, verdict, open) {
  const { streams, nodes } = block.head;
  return h("section", { class: "block" },
    h("h3", {}, h("span", { class: "chip good" }, `✓ ${say("right")}`), " ", nameOf(verdict)),
    h("p", {}, say("of_block_right", { streams: whole(streams), nodes: whole(nodes) })),
    lazily(say("show_block"), () => figures(block), { open }));
}

/** Returns what a check said of a report. */
export function reportView({ text, report, verdicts }) {
  const cut = verdicts.find(({ verdict }) => verdict === VERDICT.UNREADABLE) ?? null;
  let opened = 0;
  const cards = verdicts.filter((each) => each !== cut).map((verdict, i) => () => {
    const block = report.blocks[i], open = (verdict.verdict === VERDICT.NO || verdicts.length === 1) && (opened += 1) <= OPEN;
    return verdict.verdict === VERDICT.NO ? wrongCard(block, verdict, text, open) : rightCard(block, verdict, open);
  });
  const end = cut === null ? null : unreadable(report.records, cut, text);
  return [
    reportBanner(verdicts, cut, text, report.records),
    some(cards, BLOCKS, (n) => say("more_blocks", { n: whole(n) })),
    end && h("section", { class: "block bad" }, h("h3", {}, h("span", { class: "chip bad" }, `✗ ${say("unreadable")}`)),
      h("p", { class: "sentence" }, `${end.head} ${capital(end.why)}.`), end.picture && picture(end.picture)),
    leaves(),
  ];
}

const capital = (text) => text.slice(0, 1).toUpperCase() + text.slice(1);

// ---- a session

function refusedRows(codes, text) {
  const rows = toldRefusals(records(text), codes, text, ROWS);
  if (rows.length === 0) return null;
  return h("section", {}, h("h3", {}, say("refused_rows")), h("ol", { class: "refused" }, rows.map((row) => h("li", {},
    h("p", {}, h("b", {}, `${say("row_line", { at: whole(row.at), line: whole(row.line) })}. `), row.why),
    picture(row.picture),
    h("p", { class: "remedy" }, h("b", {}, `${say("remedy")}: `), row.remedy)))),
  codes.size > rows.length && h("p", { class: "note" }, say("more_rows", { n: whole(codes.size - rows.length) })));
}

function sessionBanner({ output, codes, checkedWell }) {
  const n = codes.size, blocks = output.blocks.length, said = [];
  // Of several reports of a period the last one counts.
  const last = [...new Map(output.blocks.map((block) => [block.period, block])).values()];
  const look = last.filter((block) => ["look", "bad"].includes(headline(block).level)).map(({ period }) => period);
  if (n > 0) said.push(say("run_refused_said"));
  if (blocks === 0 && n === 0) said.push(say("run_nothing_said"));
  if (look.length > 0) said.push(say("run_look", { names: look.slice(0, 12).join(", ") + (look.length > 12 ? " …" : "") }));
  if (blocks > 0 && checkedWell !== null) said.push(say(checkedWell ? "run_checked" : "run_checked_wrong"));
  const head = n === 1 ? say("run_refused_1") : n > 1 ? say("run_refused", { n: whole(n) }) : say(blocks > 0 ? "run_done" : "run_nothing");
  return banner(n > 0 || checkedWell === false ? "bad" : look.length > 0 ? "look" : blocks > 0 ? "good" : "plain", head, said);
}

function statementOf(block, open) {
  const { level, head, said } = headline(block);
  return h("section", { class: "block" }, h("h3", {}, nameOf({ period: block.period, round: block.round })),
    h("div", { class: `verdict small ${level}` }, h("span", { class: "sign", "aria-hidden": "true" }, LEVEL_SIGNS[level]),
      h("p", { class: "headline" }, head), said.map((each) => h("p", {}, each))),
    lazily(say("show_block"), () => figures(block, suspectsOf(block)), { open }));
}

function suspectsOf(block) {
  const names = block.all("measure").filter(({ verdict }) => verdict === "reject").map(({ stream }) => stream);
  return { streams: block.one("global")?.verdict === "reject" ? names : [], nodes: [] };
}

function betweenOf(rows) {
  const over = rows.filter(({ kind }) => kind === "over").map(valuesOf);
  const classes = rows.filter(({ kind }) => kind === "class").map(valuesOf);
  const others = rows.filter(({ kind }) => !["over", "class", "refused", "design"].includes(kind));
  const columns = [{ head: say("stream"), name: "name" }, { head: say("way"), name: "way" }, { head: say("class"), name: "class" }, { head: say("certificate"), name: "wide" }];
  return [
    over.map((row) => h("p", { class: "verdict small look" }, h("span", { class: "sign" }, "!"), say("over", row))),
    classes.length > 0 && lazily(`${say("designs")} (${whole(classes.length)})`, () =>
      table(columns, classes.map((row) => [row.name, `${row.from} → ${row.to}`, classOf(row.class), row.parts]))),
    others.length > 0 && h("p", { class: "note" }, say("other_rows_said", { n: whole(others.length) })),
  ];
}

/** Returns what a run gave of a session. */
export function sessionView(judged) {
  const { text, codes, output } = judged;
  const last = output.blocks.length - 1;
  const parts = output.blocks.map((block, i) => () => statementOf(block, i === last && output.blocks.length <= BLOCKS));
  return [
    sessionBanner(judged),
    refusedRows(codes, text),
    some(parts, BLOCKS, (n) => say("more_blocks", { n: whole(n) })),
    betweenOf(output.between),
    leaves(),
  ];
}

// ---- a bundle

const STEP_SIGNS = { [STEP.GOOD]: "✓", [STEP.NOTE]: "!", [STEP.WRONG]: "✗" };

function stepOf({ level, key, values, differs }) {
  const numbers = Object.fromEntries(Object.entries(values).map(([name, value]) => [name, typeof value === "number" ? whole(value) : value]));
  return h("li", { class: level }, h("span", { class: "sign", "aria-hidden": "true" }, STEP_SIGNS[level]), h("span", {}, say(key, numbers)),
    differs && h("dl", { class: "lines" }, h("dt", {}, say("b_run_stated")), h("dd", {}, h("code", {}, differs.one)),
      h("dt", {}, say("b_run_found")), h("dd", {}, h("code", {}, differs.other))));
}

function checkStep(verdicts) {
  const wrong = verdicts.filter(({ verdict }) => verdict !== VERDICT.YES).length, n = verdicts.length;
  return wrong === 0 && n > 0
    ? { level: STEP.GOOD, key: n === 1 ? "b_check_1" : "b_check", values: { n } }
    : { level: STEP.WRONG, key: "b_check_wrong", values: { wrong, n } };
}

/** Returns what a bundle's audit said. */
export function bundleView({ audit, text, report, verdicts }) {
  const steps = [...audit.steps, checkStep(verdicts)], good = steps.every(({ level }) => level !== STEP.WRONG), { manifest } = audit;
  const cut = verdicts.find(({ verdict }) => verdict === VERDICT.UNREADABLE) ?? null;
  let opened = 0;
  const cards = verdicts.filter((each) => each !== cut).map((verdict, i) => () => {
    const isWrong = verdict.verdict === VERDICT.NO, open = (isWrong || i === verdicts.length - 1) && (opened += 1) <= OPEN;
    return isWrong ? wrongCard(report.blocks[i], verdict, text, open) : rightCard(report.blocks[i], verdict, open);
  });
  return [
    banner(good ? "good" : "bad", say(good ? "bundle_right" : "bundle_wrong"), [say(good ? "bundle_right_said" : "bundle_wrong_said")]),
    manifest && h("dl", { class: "head" }, [["b_plant", manifest.plant], ["b_period", `${manifest.period}: ${manifest.first} – ${manifest.last}`], ["b_made", manifest.made],
      ["b_words", manifest.words], ["b_program", `${manifest.program?.version ?? ""} ${manifest.program?.commit ?? ""}`]]
      .map(([key, value]) => [h("dt", {}, say(key)), h("dd", {}, value)])),
    h("h3", {}, say("steps")), h("ul", { class: "steps" }, steps.map(stepOf)),
    h("h3", {}, say("b_not")), h("ul", {}, [1, 2, 3, 4].map((n) => h("li", {}, say(`b_not_${n}`)))),
    some(cards, BLOCKS, (n) => say("more_blocks", { n: whole(n) })),
    leaves(),
  ];
}
