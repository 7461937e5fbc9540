/** Elements of the page, made without any text being read as HTML. */

const SVG = "http://www.w3.org/2000/svg";

function filled(element, attributes, children) {
  for (const [name, value] of Object.entries(attributes)) {
    if (value === false || value === null || value === undefined) continue;
    if (name.startsWith("on")) element.addEventListener(name.slice(2), value);
    else element.setAttribute(name, value === true ? "" : value);
  }
  element.append(...children.flat(Infinity).filter((child) => child !== null && child !== undefined && child !== false && child !== ""));
  return element;
}

/** Returns an element with attributes, listeners (`onclick`) and children; what is empty is left out. */
export const h = (tag, attributes = {}, ...children) => filled(document.createElement(tag), attributes, children);

/** Returns the same as a part of a drawing. */
export const svg = (tag, attributes = {}, ...children) => filled(document.createElementNS(SVG, tag), attributes, children);

/**
 * Returns a table that becomes cards on a narrow screen.
 *
 * @param {{ head: string, number?: boolean, name?: string }[]} columns the heads; a name is a class of its cells
 * @param {(string | Node)[][]} rows the cells
 */
export function table(columns, rows, { name = "", classes = () => "" } = {}) {
  const cell = ({ head, number, name: kind }, value) =>
    h("td", { class: [number ? "n" : "", kind ?? ""].join(" ").trim() || null, "data-head": head }, value);
  return h("table", { class: `cards ${name}` },
    h("thead", {}, h("tr", {}, columns.map(({ head, number }) => h("th", { scope: "col", class: number ? "n" : null }, head)))),
    h("tbody", {}, rows.map((row, i) => h("tr", { class: classes(i) || null }, columns.map((column, j) => cell(column, row[j]))))));
}

/** Returns a row of a file with the place at fault marked, as a screen reader reads it too. */
export function picture({ line, from, to }) {
  return h("pre", { class: "row" }, h("code", {}, line.slice(0, from), h("mark", {}, line.slice(from, to)), line.slice(to), "\n",
    h("span", { class: "caret", "aria-hidden": "true" }, " ".repeat(from), "^".repeat(Math.max(1, to - from)))));
}
