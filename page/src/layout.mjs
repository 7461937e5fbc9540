/**
 * Places of units, tanks and streams on a drawing.
 *
 * Units stand in layers from left to right, such that streams lead to the right where that is possible: a stream that would close a
 * circle is turned round for the layers. A stream over several layers goes through a point in each. Within its layer each unit or point
 * moves to the middle of what it is joined with, some times to and fro, which takes most crossings away. Each end of a stream in the
 * world outside is a point of its own.
 */

export const ENV = "env";
const ROUNDS = 8, NODE_HEIGHT = 34, POINT_HEIGHT = 28, LETTER = 7.4, LAYER_GAP = 64, LABEL_LETTER = 6.4;
// The gap between two items of a column: wide in a small plant, where there is room for labels.
const LEAST_GAP = 18, WIDEST_GAP = 58;
// How far along its first part a stream may have its label, and how far beside it: the first choice, if others begin beside it, and the rest.
const ALONG = 0.7, ALONG_TOO = [0.5, 0.62, 0.38, 0.78, 0.28], BESIDE = [0, -13, 13], LABEL_HEIGHT = 30;

/** Returns the streams near a chosen one: those within two steps, or within one if these are too many. */
export function near(streams, chosen, most) {
  let found = new Set(streams.filter(({ name }) => name === chosen));
  for (let step = 0; step < 2; step += 1) {
    const ends = new Set([...found].flatMap(({ from, to }) => [from, to]).filter((end) => end !== ENV));
    const grown = new Set(streams.filter(({ from, to }) => ends.has(from) || ends.has(to)));
    if (step > 0 && grown.size > most) break;
    found = grown;
  }
  return streams.filter((each) => found.has(each));
}

/**
 * Returns where everything is.
 *
 * @param {{ name: string, from: string, to: string, letters: number }[]} streams how many letters each label has room for
 * @param {Map<string, number>} letters how many letters a box has room for, if these aren't those of its name
 * @returns {{ width: number, height: number, boxes: object[], routes: object[] }}
 */
export function layout(streams, letters = new Map()) {
  const graph = graphOf(streams);
  for (const node of graph.nodes) {
    node.width = node.isPoint ? 0 : Math.max(60, LETTER * (Math.max(node.name.length, letters.get(node.name) ?? 0) + 2));
  }
  turnCircles(graph);
  layers(graph);
  const columns = chained(graph);
  order(columns);
  return placed(graph, columns);
}

function graphOf(streams) {
  const nodes = new Map();
  const node = (key, name) => {
    if (!nodes.has(key)) nodes.set(key, { key, name, out: [], into: [], layer: 0, isPoint: name === ENV });
    return nodes.get(key);
  };
  const edges = streams.map((stream, i) => {
    const from = node(stream.from === ENV ? `in ${i}` : `at ${stream.from}`, stream.from);
    const to = node(stream.to === ENV ? `out ${i}` : `at ${stream.to}`, stream.to);
    return { stream, from, to, turned: false };
  }).filter(({ from, to }) => from !== to);
  return { nodes: [...nodes.values()], edges };
}

// Turns the streams that lead back to where a walk came from.
function turnCircles({ nodes, edges }) {
  const state = new Map(), out = new Map(nodes.map((node) => [node, []]));
  for (const edge of edges) out.get(edge.from).push(edge);
  const incoming = new Map(nodes.map((node) => [node, 0]));
  for (const edge of edges) incoming.set(edge.to, incoming.get(edge.to) + 1);
  const begin = [...nodes].sort((a, b) => incoming.get(a) - incoming.get(b));
  for (const start of begin) {
    if (state.has(start)) continue;
    const path = [{ node: start, next: 0 }];
    state.set(start, "open");
    while (path.length > 0) {
      const top = path.at(-1), edge = out.get(top.node)[top.next];
      top.next += 1;
      if (edge === undefined) {
        state.set(top.node, "done");
        path.pop();
      } else if (state.get(edge.to) === "open") {
        edge.turned = true;
      } else if (!state.has(edge.to)) {
        state.set(edge.to, "open");
        path.push({ node: edge.to, next: 0 });
      }
    }
  }
  for (const edge of edges) {
    edge.left = edge.turned ? edge.to : edge.from;
    edge.right = edge.turned ? edge.from : edge.to;
    edge.left.out.push(edge);
    edge.right.into.push(edge);
  }
}

// The layer of a node is the longest way to it; a source stands just left of what it feeds.
function layers({ nodes }) {
  const left = new Map(nodes.map((node) => [node, node.into.length]));
  const ready = nodes.filter((node) => node.into.length === 0);
  for (let i = 0; i < ready.length; i += 1) {
    for (const { right } of ready[i].out) {
      right.layer = Math.max(right.layer, ready[i].layer + 1);
      left.set(right, left.get(right) - 1);
      if (left.get(right) === 0) ready.push(right);
    }
  }
  for (const node of nodes) {
    if (node.into.length === 0 && node.out.length > 0) node.layer = Math.min(...node.out.map(({ right }) => right.layer)) - 1;
  }
}

// Makes columns, with a point in each column that a stream passes.
function chained({ nodes, edges }) {
  const columns = [];
  const put = (item) => {
    (columns[item.layer] ??= []).push(item);
    item.next = [];
    item.before = [];
    return item;
  };
  nodes.forEach(put);
  for (const edge of edges) {
    edge.chain = [edge.left];
    for (let layer = edge.left.layer + 1; layer < edge.right.layer; layer += 1) {
      edge.chain.push(put({ layer, isPoint: true, width: 0 }));
    }
    edge.chain.push(edge.right);
    for (let i = 1; i < edge.chain.length; i += 1) {
      edge.chain[i - 1].next.push(edge.chain[i]);
      edge.chain[i].before.push(edge.chain[i - 1]);
    }
  }
  return Array.from(columns, (column) => column ?? []);
}

function order(columns) {
  const renumber = (column) => column.forEach((item, i) => { item.at = i; });
  columns.forEach(renumber);
  const sort = (column, side) => {
    const middle = (item) => (item[side].length ? item[side].reduce((sum, { at }) => sum + at, 0) / item[side].length : item.at);
    const keys = new Map(column.map((item) => [item, middle(item)]));
    column.sort((a, b) => keys.get(a) - keys.get(b));
    renumber(column);
  };
  for (let round = 0; round < ROUNDS; round += 1) {
    for (let i = 1; i < columns.length; i += 1) sort(columns[i], "before");
    for (let i = columns.length - 2; i >= 0; i -= 1) sort(columns[i], "next");
  }
}

const heightOf = (item) => (item.isPoint ? POINT_HEIGHT : NODE_HEIGHT);

// Moves the items of a column to where they would like to be, in their order and without touching.
function spread(column, gap, wish) {
  const wished = column.map(wish);
  let low = -Infinity;
  column.forEach((item, i) => {
    item.y = Math.max(wished[i], low + heightOf(item) / 2);
    low = item.y + heightOf(item) / 2 + gap;
  });
  let high = Infinity;
  for (let i = column.length - 1; i >= 0; i -= 1) {
    const item = column[i], lowest = i > 0 ? column[i - 1].y + heightOf(column[i - 1]) / 2 + gap + heightOf(item) / 2 : -Infinity;
    const shift = (wished[i] - item.y) / 2;
    item.y = Math.max(lowest, Math.min(item.y + Math.min(shift, 0), high - heightOf(item) / 2));
    high = item.y - heightOf(item) / 2 - gap;
  }
}

function placed({ nodes, edges }, columns) {
  const gap = Math.max(LEAST_GAP, WIDEST_GAP - 8 * Math.max(...columns.map(({ length }) => length - 2)));
  columns.forEach((column) => column.forEach((item, i) => { item.y = i * (NODE_HEIGHT + gap); }));
  const middle = (items, own) => (items.length ? items.reduce((sum, { y }) => sum + y, 0) / items.length : own);
  for (let round = 0; round < ROUNDS; round += 1) {
    for (const column of columns) spread(column, gap, (item) => middle(item.before, middle(item.next, item.y)));
    for (const column of [...columns].reverse()) spread(column, gap, (item) => middle([...item.next, ...item.before], item.y));
  }
  const widths = columns.map((column) => Math.max(12, ...column.map(({ width: own }) => own)));
  // Between two columns the labels of the streams that begin there have to find room.
  const room = ({ left, stream }) => (LABEL_LETTER * stream.letters + 22) * (left.out.length > 1 ? 1.45 : 1);
  const rooms = columns.map((_, i) => Math.max(LAYER_GAP, ...edges.filter(({ left }) => left.layer === i).map(room)));
  const xs = [];
  columns.forEach((_, i) => { xs[i] = i === 0 ? widths[0] / 2 + 8 : xs[i - 1] + widths[i - 1] / 2 + rooms[i - 1] + widths[i] / 2; });
  const top = Math.min(...columns.flat().map((item) => item.y - heightOf(item) / 2)) - 14;
  columns.forEach((column, i) => column.forEach((item) => {
    item.x = xs[i];
    item.y -= top;
  }));
  const boxes = nodes.filter(({ isPoint }) => !isPoint).map(({ name, x, y, width }) => ({ name, x, y, width, height: NODE_HEIGHT - 6 }));
  const width = Math.max(120, ...columns.flat().map(({ x, width: own }) => x + own / 2)) + 12;
  const height = Math.max(60, ...columns.flat().map((item) => item.y + heightOf(item) / 2)) + 10;
  return { width, height, boxes, routes: labelled(routes(edges), boxes) };
}

// A stream's way: from the side of its first box through its points to the side of its last one. Streams that share a side are spread.
function routes(edges) {
  const port = (node, side, edge) => {
    const some = side === "out" ? node.out : node.into;
    const other = (each) => (side === "out" ? each.chain[1] : each.chain.at(-2));
    const sorted = [...some].sort((a, b) => other(a).y - other(b).y);
    const step = Math.min(9, (NODE_HEIGHT - 12) / Math.max(1, sorted.length));
    const y = node.y + (node.isPoint ? 0 : (sorted.indexOf(edge) - (sorted.length - 1) / 2) * step);
    return [node.x + (side === "out" ? node.width / 2 : -node.width / 2), y];
  };
  return edges.map((edge) => {
    const points = [port(edge.left, "out", edge), ...edge.chain.slice(1, -1).map(({ x, y }) => [x, y]), port(edge.right, "into", edge)];
    const first = edge.left.out.length > 1 ? ALONG : 0.5, [from, to] = points;
    const places = [first, ...ALONG_TOO].flatMap((t) => BESIDE.map((y) => { const [x, at] = onCurve(from, to, t); return [x, at + y]; }));
    if (edge.turned) points.reverse();
    return { name: edge.stream.name, points, places, width: LABEL_LETTER * edge.stream.letters };
  });
}

// Gives each stream the first place for its label where it hides no other, or hides the least.
function labelled(found, boxes) {
  const taken = boxes.map(({ x, y, width, height }) => [x, y, width, height]);
  const hidden = ([x, y], width) => taken.reduce((sum, [x0, y0, w, h]) => {
    const across = (width + w) / 2 - Math.abs(x - x0), down = (LABEL_HEIGHT + h) / 2 - Math.abs(y - y0);
    return across > 0 && down > 0 ? sum + across * down : sum;
  }, 0);
  return found.map(({ name, points, places, width }) => {
    let label = places[0], least = Infinity;
    for (const place of places) {
      const size = hidden(place, width);
      if (size < least) [label, least] = [place, size];
    }
    taken.push([...label, width, LABEL_HEIGHT]);
    return { name, points, label };
  });
}

// The point of the curve between two points that leaves and arrives level.
function onCurve([x0, y0], [x1, y1], t) {
  const far = 3 * (1 - t) * t * t + t ** 3, half = 1.5 * (1 - t) ** 2 * t + 1.5 * (1 - t) * t * t + t ** 3;
  return [x0 + (x1 - x0) * half, y0 + (y1 - y0) * far];
}
