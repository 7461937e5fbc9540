'use strict';
// Without a network and without a library: choosing, sorting, finding, and drawing what lies near a stream.
const SIGNS = {redundant: '●', nonredundant: '○', observable: '△', unobservable: '?'};
const SVG = 'http://www.w3.org/2000/svg';
const MOST = 60, THINNEST = 1.2, WIDEST = 9;

// ---- the streams of a section, by name

function streamsOf(section) {
  if (section.streams) return section.streams;
  section.streams = new Map();
  for (const row of section.querySelectorAll('tr[data-stream]')) {
    const {stream: name, from = name, to = 'env'} = row.dataset, way = row.querySelector('td.way');
    const word = row.querySelector('td.class span:last-of-type');
    section.streams.set(name, {
      name, from, to, row, kind: word.className, mark: (row.className.match(/of-(suspect|taken|meter)/) || ['', ''])[1],
      figure: text(row.querySelector(way ? 'td.booked' : 'td.gain, td.booked')),
    });
  }
  return section.streams;
}
function text(cell) { return cell ? cell.textContent.trim() : ''; }
function certificateOf(section, name) {
  const row = section.querySelector(`tr[data-of="${CSS.escape(name)}"]`);
  if (!row) return null;
  const words = kind => text(row.querySelector(`.${kind}`)).split(' ').filter(word => word);
  const side = words('side');
  return {side, parts: words('parts').map(part => part.slice(1)), says: text(row.querySelector('td.text')), cut: side.length > 0};
}

// ---- choosing a row or an arrow

function clear(section) {
  for (const row of section.querySelectorAll('tr.chosen, tr.member')) row.classList.remove('chosen', 'member');
  for (const shape of section.querySelectorAll('g.part, g.side, g.told, g.chosen')) shape.classList.remove('part', 'side', 'told', 'chosen');
  for (const svg of section.querySelectorAll('svg.marked')) svg.classList.remove('marked');
  for (const figure of section.querySelectorAll('figure.has-choice')) figure.classList.remove('has-choice');
}
function choose(section, name, scroll) {
  const stream = streamsOf(section).get(name);
  if (!stream) return;
  clear(section);
  const figure = section.querySelector('figure.drawing');
  if (figure && figure.dataset.near && figure.dataset.near !== name && figure.querySelector('svg.plant')) drawNear(section, figure, name);
  stream.row.classList.add('chosen');
  const certificate = certificateOf(section, name);
  if (certificate) {
    const svg = figure && figure.querySelector('svg.plant');
    const at = id => svg && svg.querySelector(`[id="${CSS.escape(figure.dataset.prefix + id)}"]`);
    for (const part of certificate.parts) {
      (at('-stream-' + part) || at('-node-' + part))?.classList.add('part');
      at('-label-' + part)?.classList.add('told');
      const row = streamsOf(section).get(part)?.row;
      if (row && row !== stream.row) row.classList.add('member');
    }
    for (const node of certificate.side) at('-node-' + node)?.classList.add('side');
    for (const shape of [at('-stream-' + name) || at('-node-' + name), at('-label-' + name)]) shape?.classList.add('chosen');
    if (svg) { svg.classList.add('marked'); figure.classList.add('has-choice'); center(at('-stream-' + name) || at('-node-' + name)); }
    const why = certificate.cut ? ' What enters these units leaves them.' : ' What circulates along it is seen by no meter.';
    const note = section.querySelector('.certificate');
    if (note) { note.textContent = `${name}, ${stream.kind}: ${certificate.says}.${why}`; note.classList.remove('hint'); }
  }
  if (scroll) stream.row.scrollIntoView({block: 'center', behavior: 'smooth'});
}
function center(shape) {
  const canvas = shape?.closest('.canvas');
  if (!canvas) return;
  const box = shape.getBoundingClientRect(), frame = canvas.getBoundingClientRect();
  canvas.scrollLeft += (box.left + box.right - frame.left - frame.right) / 2;
  canvas.scrollTop += (box.top + box.bottom - frame.top - frame.bottom) / 2;
}
for (const {dataset: {prefix, near}} of document.querySelectorAll('figure.drawing[data-near]'))
  center(document.getElementById(`${prefix}-stream-${near}`) || document.getElementById(`${prefix}-node-${near}`));
function isSection(element) { return element.closest('section.period, details.period, section.design'); }
document.addEventListener('click', event => {
  const arrow = event.target.closest('[data-arrow]');
  const row = event.target.closest('tr[data-stream]');
  if (arrow) choose(isSection(arrow), arrow.dataset.arrow, true);
  else if (row) choose(isSection(row), row.dataset.stream, false);
});
document.addEventListener('keydown', event => {
  const row = event.target.closest?.('tr[data-stream]');
  if (event.key === 'Enter' && row) choose(isSection(row), row.dataset.stream, false);
  if (event.key === 'Escape') document.querySelectorAll('section.period, details.period, section.design').forEach(clear);
});

// ---- what lies near a stream: units in columns along the flow

function nearOf(streams, name) {
  const at = new Map();
  for (const stream of streams.values())
    for (const end of [stream.from, stream.to])
      if (end !== 'env') at.set(end, [...(at.get(end) || []), stream]);
  let found = new Set([streams.get(name)]);
  for (let step = 0; step < 2; step++) {
    const wider = new Set(found);
    for (const stream of found)
      for (const end of [stream.from, stream.to]) for (const other of at.get(end) || []) wider.add(other);
    if (step && wider.size > MOST) break;
    found = wider;
  }
  return [...found];
}
function columnsOf(chosen, streams) {
  const column = new Map();
  const put = (node, place) => { if (node !== 'env' && !column.has(node)) { column.set(node, place); return true; } return false; };
  put(chosen.from, 0); put(chosen.to, chosen.from === 'env' ? 0 : 1);
  for (let moved = true; moved;) {
    moved = false;
    const before = new Map(column);
    for (const {from, to} of streams) {
      if (before.has(from) && to !== 'env') moved = put(to, before.get(from) + 1) || moved;
      if (before.has(to) && from !== 'env') moved = put(from, before.get(to) - 1) || moved;
    }
  }
  return column;
}
function orderOf(column, streams) {
  const byColumn = new Map();
  for (const [node, place] of column) byColumn.set(place, [...(byColumn.get(place) || []), node]);
  const rank = new Map();
  const number = () => { for (const nodes of byColumn.values()) nodes.forEach((node, place) => rank.set(node, place - (nodes.length - 1) / 2)); };
  number();
  for (let turn = 0; turn < 6; turn++) {
    for (const nodes of byColumn.values()) {
      const middle = node => {
        const others = streams.flatMap(({from, to}) => from === node ? [to] : to === node ? [from] : []).filter(other => rank.has(other));
        return others.length ? others.reduce((sum, other) => sum + rank.get(other), 0) / others.length : rank.get(node);
      };
      const value = new Map(nodes.map(node => [node, middle(node)]));
      nodes.sort((one, other) => value.get(one) - value.get(other));
    }
    number();
  }
  return {byColumn, rank};
}
function make(kind, attributes, inner) {
  const element = document.createElementNS(SVG, kind);
  for (const key in attributes) key === 'style' ? element.style.cssText = attributes.style : element.setAttribute(key, attributes[key]);
  if (inner !== undefined) element.textContent = inner;
  return element;
}
function tonnesOf(figure) { return Math.abs(parseFloat(figure.replace(/[^0-9.\-]/g, ''))) || 0; }
function drawNear(section, figure, name) {
  const all = streamsOf(section), chosen = all.get(name), found = nearOf(all, name);
  const widest = Number(figure.dataset.widest) / 1e6;
  const arcs = found.filter(stream => stream.name !== stream.from);
  const tanks = new Set([...all.values()].filter(stream => stream.name === stream.from).map(stream => stream.name));
  const column = columnsOf(chosen, arcs), {byColumn, rank} = orderOf(column, arcs);
  const least = Math.min(...column.values());
  const rows = Math.max(...[...byColumn.values()].map(nodes => nodes.length), arcs.length > 8 ? 4 : 2);
  const columns = byColumn.size, width = Math.max(210, Math.min(300, 1180 / columns)), height = 46;
  const place = node => [(column.get(node) - least) * width + 190, (rank.get(node) + rows / 2) * height + 20];
  const svg = figure.querySelector('svg.plant'), prefix = figure.dataset.prefix;
  svg.replaceChildren();
  svg.setAttribute('viewBox', `0 0 ${(columns - 1) * width + 380} ${rows * height + 40}`);
  svg.style.maxWidth = `${1.2 * ((columns - 1) * width + 380)}px`;
  svg.style.setProperty('--least-width', `${.85 * ((columns - 1) * width + 380)}px`);
  svg.style.setProperty('--least-height', `${.85 * (rows * height + 40)}px`);
  const outer = new Map(), pairs = new Map(), labels = [], names = [];
  const many = arcs.length > 25;
  arcs.sort((one, other) => (other === chosen) - (one === chosen));
  const shapes = arcs.map(stream => {
    const isOut = stream.to === 'env', isIn = stream.from === 'env';
    let a, z;
    if (isIn || isOut) {
      const node = isIn ? stream.to : stream.from, count = outer.get(node) || 0;
      outer.set(node, count + 1);
      const [x, y] = place(node), far = y + (count % 2 ? 1 : -1) * (12 + 11 * count);
      [a, z] = isIn ? [[x - 165, far], [x - 46, y]] : [[x + 46, y], [x + 165, far]];
    } else {
      const [x0, y0] = place(stream.from), [x1, y1] = place(stream.to), along = x1 > x0 ? 46 : x1 < x0 ? -46 : 0;
      const pair = [stream.from, stream.to].sort().join(' '), count = pairs.get(pair) || 0, off = (count % 2 ? -1 : 1) * Math.ceil(count / 2) * 9;
      pairs.set(pair, count + 1);
      [a, z] = [[x0 + along, y0 + (along ? off : y1 > y0 ? 13 : -13)], [x1 - along, y1 + (along ? off : y1 > y0 ? -13 : 13)]];
    }
    const bend = (z[0] - a[0]) / 2 || 40;
    const kind = (stream.mark || stream.kind), size = stream.figure ? THINNEST + (WIDEST - THINNEST) * Math.min(1, tonnesOf(stream.figure) / (widest || 1)) : THINNEST;
    const group = make('g', {id: `${prefix}-stream-${stream.name}`, class: `edge ${kind}`, 'data-arrow': stream.name, style: `--w:${size.toFixed(2)}px`});
    const path = `M${a} C${[a[0] + bend, a[1]]} ${[z[0] - bend, z[1]]} ${z}`;
    const back = z[0] - a[0] >= 0 && bend > 0 ? 1 : -1, head = Math.max(4, size * .55 + 2.5);
    const tip = z[0] === a[0] ? `${z} ${[z[0] - head, z[1] - back * 9]} ${[z[0] + head, z[1] - back * 9]}` : `${z} ${[z[0] - back * 10, z[1] - head]} ${[z[0] - back * 10, z[1] + head]}`;
    const ends = end => end !== 'env' && (end === chosen.from || end === chosen.to), near = ends(stream.from) || ends(stream.to);
    group.append(make('title', {}, `${stream.name}, ${stream.kind}: ${stream.from} to ${stream.to}${stream.figure ? ', ' + stream.figure + ' t' : ''}`),
      make('path', {class: 'hit', d: path}), make('path', {class: 'line', d: path}), make('polygon', {points: tip}));
    const spot = t => [0, 1].map(k => (1 - t) ** 3 * a[k] + 3 * (1 - t) ** 2 * t * (k ? a[1] : a[0] + bend) + 3 * (1 - t) * t * t * (k ? z[1] : z[0] - bend) + t ** 3 * z[k]);
    const half = 3.1 * Math.max(stream.name.length + 2, stream.figure.length + 2);
    const free = ([x, y]) => labels.every(other => Math.abs(other.x - x) > other.half + half || Math.abs(other.y - y) > 21);
    const first = isIn ? .25 : isOut ? .75 : stream === chosen ? .5 : ends(stream.from) && !ends(stream.to) ? .66 : ends(stream.to) && !ends(stream.from) ? .34 : .5;
    const where = [first, .5, .35, .65, .25, .75].map(spot).find(free) || (stream === chosen && spot(.5));
    if (where && (!many || near)) {
      const [x, y] = where;
      labels.push({x, y, half});
      const label = make('g', {id: `${prefix}-label-${stream.name}`, class: `label ${kind}`, 'data-arrow': stream.name});
      label.append(make('text', {class: 'figure', x, y: y + 9}, stream.figure && `${stream.figure} t`), make('text', {x, y: y - 2}, `${SIGNS[stream.kind] || ''} ${stream.name}`));
      names.push(label);
    }
    return [size, group];
  });
  shapes.sort(([one], [other]) => other - one).forEach(([, group]) => svg.append(group));
  for (const node of column.keys()) {
    const [x, y] = place(node), tank = tanks.has(node) && all.get(node);
    const group = make('g', {id: `${prefix}-node-${node}`, class: tank ? `node tank ${tank.mark || tank.kind}` : 'node', 'data-node': node});
    if (tank) group.setAttribute('data-arrow', node);
    group.append(make('rect', {x: x - 46, y: y - 13, width: 92, height: 26, rx: tank ? 12 : 3}), make('text', {x, y: y + 4}, node));
    svg.append(group);
  }
  svg.append(...names);
  figure.dataset.near = name;
  figure.querySelectorAll('.near').forEach(each => { each.textContent = name; });
}

// ---- sorting and finding

function numberOf(cell) {
  const found = parseFloat(text(cell).replace(/[,±\s]/g, ''));
  return Number.isNaN(found) ? null : found;
}
function sortBy(table, place) {
  const heads = [...table.tHead.rows[0].cells], head = heads[place];
  const down = head.getAttribute('aria-sort') === 'descending' ? 1 : -1, isNumber = head.classList.contains('n');
  heads.forEach(other => other.removeAttribute('aria-sort'));
  head.setAttribute('aria-sort', down === 1 ? 'ascending' : 'descending');
  const value = row => isNumber ? numberOf(row.cells[place]) : text(row.cells[place]);
  const size = found => typeof found === 'number' && /in (sd|%)|Adj/.test(text(head)) ? Math.abs(found) : found;
  const rows = [...table.tBodies[0].rows].map(row => [size(value(row)), row]);
  rows.sort(([one], [other]) => one === null ? 1 : other === null ? -1 : (one < other ? -1 : one > other ? 1 : 0) * down);
  table.tBodies[0].append(...rows.map(([, row]) => row));
}
for (const table of document.querySelectorAll('table.sortable')) {
  [...table.tHead.rows[0].cells].forEach((head, place) => {
    // no element within the head: a browser doesn't print it again on each page
    head.tabIndex = 0;
    head.title = 'Sort';
    head.addEventListener('click', () => sortBy(table, place));
    head.addEventListener('keydown', event => { if (event.key === 'Enter') sortBy(table, place); });
  });
  if (table.tBodies[0].rows.length < 20) continue;
  const tools = document.createElement('p'), input = document.createElement('input');
  tools.className = 'tools';
  Object.assign(input, {type: 'search', placeholder: 'Find a stream or a unit'});
  input.setAttribute('aria-label', 'Find a stream or a unit');
  input.addEventListener('input', () => {
    const wanted = input.value.trim().toLowerCase();
    for (const row of table.tBodies[0].rows) row.hidden = !(row.cells[0].textContent + ' ' + row.cells[1].textContent).toLowerCase().includes(wanted);
  });
  tools.append(input);
  table.before(tools);
}

// ---- a link to a folded period opens it

function unfold() {
  const target = location.hash && document.getElementById(location.hash.slice(1));
  const folded = target && target.closest('details');
  if (folded) { folded.open = true; target.scrollIntoView(); }
}
addEventListener('hashchange', unfold);
unfold();
