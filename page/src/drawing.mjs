/** The drawing of a block: arrows as wide as their tonnes, classes by dash and colour, and what is at fault in red. */
import { h, svg } from "./dom.mjs";
import { layout, near } from "./layout.mjs";
import { numberOf } from "./report.mjs";
import { say, tonnes, whole } from "./words.mjs";

/** Above this many streams the neighbourhood of one is drawn. */
export const MOST = 60;
const THINNEST = 1.3, WIDEST = 9;
const DASHES = { nonredundant: "9 4", observable: "5 3", unobservable: "1.5 3.5" };

const sizeOf = (flow) => Number(flow < 0n ? -flow : flow);

/**
 * Returns the drawing of a block's streams.
 *
 * @param {{ name: string, from: string, to: string, class: string, flow: string }[]} streams the rows
 * @param {{ streams: string[], nodes: string[] }} marked what is at fault
 * @param {string} title what it is called
 */
export function drawing(streams, marked, title) {
  const lines = streams.map((row) => ({ ...row, grams: row.class === "unobservable" ? null : numberOf(row.flow) }));
  // A tank is a stream that leads from itself: what its content gained is written into its box.
  const tanks = new Map(lines.filter(({ name, from }) => name === from).map((line) => [line.name, line]));
  const arrows = lines.filter(({ name }) => !tanks.has(name));
  if (arrows.length === 0) return null;
  const chosen = arrows.length > MOST ? chosenOf(arrows, marked) : "";
  const shown = chosen ? near(arrows, chosen, MOST) : arrows;
  if (shown.length > 4 * MOST) return null;
  const placed = layout(
    shown.map(({ name, from, to, grams }) => ({ name, from, to, letters: Math.max(name.length, figure(grams).length) + 2 })),
    new Map([...tanks].map(([name, { grams }]) => [name, figure(grams).length])));
  const widest = Math.max(1, ...arrows.map(({ grams }) => (grams === null ? 0 : sizeOf(grams))));
  const byName = new Map(shown.map((line) => [line.name, line]));
  const parts = placed.routes.map((route) => arrow(route, byName.get(route.name), widest, marked));
  const names = [...marked.streams, ...marked.nodes];
  return h("figure", { class: "drawing" },
    h("div", { class: "canvas", tabindex: "0", role: "group", "aria-label": title },
      svg("svg", { viewBox: `0 0 ${placed.width.toFixed(0)} ${placed.height.toFixed(0)}`, width: placed.width.toFixed(0), role: "img", "aria-label": title },
        parts.map(({ line }) => line), placed.boxes.map((box) => node(box, tanks.get(box.name), marked)), parts.map(({ label }) => label))),
    h("figcaption", { class: "note" },
      chosen ? `${say("drawing_near", { n: whole(arrows.length), name: chosen })} ` : "",
      names.length ? say("drawing_legend", { name: names.join(", ") }) : say("drawing_plain")));
}

function chosenOf(arrows, { streams, nodes }) {
  const found = arrows.find(({ name, from, to }) => streams.includes(name) || nodes.includes(from) || nodes.includes(to));
  return (found ?? arrows[0]).name;
}

const figure = (grams) => (grams === null ? "" : `${tonnes(grams)} t`);

function arrow({ name, points, label }, line, widest, marked) {
  const width = line.grams === null ? THINNEST : THINNEST + (WIDEST - THINNEST) * (sizeOf(line.grams) / widest);
  const kind = marked.streams.includes(name) ? `${line.class} fault` : line.class;
  const [tip, before] = [points.at(-1), points.at(-2)];
  const direction = Math.sign(tip[0] - before[0]) || 1, size = 5 + 0.5 * width;
  const ends = [...points.slice(0, -1), [tip[0] - direction * size, tip[1]]];
  const path = ends.slice(1).reduce((text, [x, y], i) => {
    const [x0, y0] = ends[i], half = (x - x0) / 2;
    return `${text} C${(x0 + half).toFixed(1)},${y0.toFixed(1)} ${(x - half).toFixed(1)},${y.toFixed(1)} ${x.toFixed(1)},${y.toFixed(1)}`;
  }, `M${ends[0][0].toFixed(1)},${ends[0][1].toFixed(1)}`);
  const head = `${tip[0]},${tip[1]} ${tip[0] - direction * size},${tip[1] - size * 0.7} ${tip[0] - direction * size},${tip[1] + size * 0.7}`;
  return {
    line: svg("g", { class: `edge ${kind}` }, svg("title", {}, `${name}: ${line.from} → ${line.to}`),
      svg("path", { d: path, "stroke-width": width.toFixed(1), "stroke-dasharray": DASHES[line.class] ?? null }), svg("polygon", { points: head })),
    label: svg("g", { class: `label ${kind}` },
      svg("text", { x: label[0].toFixed(1), y: (label[1] - 3 - width / 2).toFixed(1) }, name),
      svg("text", { class: "figure", x: label[0].toFixed(1), y: (label[1] + 11 + width / 2).toFixed(1) }, figure(line.grams))),
  };
}

function node(box, tank, marked) {
  const fault = marked.nodes.includes(box.name) || (tank && marked.streams.includes(tank.name));
  const left = box.x - box.width / 2, top = box.y - box.height / 2;
  return svg("g", { class: `node${tank ? " tank" : ""}${fault ? " fault" : ""}` }, svg("title", {}, box.name),
    svg("rect", { x: left.toFixed(1), y: top.toFixed(1), width: box.width.toFixed(1), height: box.height.toFixed(1), rx: tank ? 12 : 3 }),
    svg("text", { x: box.x.toFixed(1), y: (box.y + (tank ? -1 : 4)).toFixed(1) }, box.name),
    tank && svg("text", { class: "figure", x: box.x.toFixed(1), y: (box.y + 10).toFixed(1) }, tank.grams === null ? "" : `${tank.grams > 0n ? "+" : ""}${figure(tank.grams)}`));
}
