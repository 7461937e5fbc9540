'use strict';
// A grid of cells with one editor: typing, moving, pasting a block. Each changed cell is judged here by the program's core, if the
// browser has it, and else, or if it can't be said here, by the server.
(() => {
  const form = document.querySelector('form[data-grid]');
  if (!form) return;
  const table = form.querySelector('table.grid'), told = form.querySelector('.told'), counted = form.querySelector('[data-count]');
  const kind = form.dataset.grid, rows = [...table.tBodies[0].rows], token = form.querySelector('[name=csrfmiddlewaretoken]').value;
  const cellsOf = row => [...row.querySelectorAll('td[data-part]')];
  const all = rows.map(cellsOf);
  let active = all.flat()[0], input = null, waiting = new Set(), timer = 0, leaving = false, isHere = false;
  if (!active) return;
  active.tabIndex = 0;
  const where = cell => { const row = all.findIndex(cells => cells.includes(cell)); return [row, all[row].indexOf(cell)]; };
  const edited = new Set(), changed = () => all.flat().filter(cell => edited.has(cell));

  function go(cell, focus = true) {
    if (!cell) return;
    active.tabIndex = -1; active = cell; active.tabIndex = 0;
    if (focus) active.focus();
    told.textContent = active.dataset.said || '';
    told.className = `told ${active.dataset.level || ''}`;
  }
  function move(down, right) {
    const [row, column] = where(active), target = all[Math.min(all.length - 1, Math.max(0, row + down))];
    go(target[Math.min(target.length - 1, Math.max(0, column + right))]);
  }
  function put(cell, text) {
    cell.textContent = text;
    cell.classList.toggle('changed', text !== cell.dataset.was);
    if (text !== cell.dataset.was) edited.add(cell); else edited.delete(cell);
    for (const name of ['level', 'said']) delete cell.dataset[name];
    cell.classList.remove('fault', 'look');
    cell.removeAttribute('title'); cell.removeAttribute('aria-invalid');
    const isCleared = !text && Boolean(cell.dataset.was) && cell.dataset.part !== 'density';
    cell.classList.toggle('cleared', isCleared);
    if (isCleared) { cell.title = cell.dataset.said = form.dataset.cleared; if (cell === active) told.textContent = cell.title; }
    if (text !== cell.dataset.was && text) { waiting.add(cell); clearTimeout(timer); timer = setTimeout(judge, isHere ? 0 : 250); }
    counted.textContent = edited.size ? String(edited.size) : '';
  }
  function edit(text) {
    if (input) return;
    input = document.createElement('input');
    input.value = text === undefined ? active.textContent : text;
    input.maxLength = 60;
    input.setAttribute('aria-label', [active.dataset.name, active.dataset.day, active.dataset.part].filter(Boolean).join(' '));
    const cell = active, before = cell.textContent;
    cell.replaceChildren(input);
    input.focus();
    if (text === undefined) input.select();
    const end = keep => { if (!input) return; const value = input.value.trim(); input = null; put(cell, keep ? value : before); };
    input.addEventListener('blur', () => end(true));
    input.addEventListener('keydown', event => {
      if (event.key === 'Escape') { end(false); go(cell); }
      else if (event.key === 'Enter') { end(true); move(event.shiftKey ? -1 : 1, 0); }
      else if (event.key === 'Tab') { end(true); move(0, event.shiftKey ? -1 : 1); }
      else if (event.key === 'ArrowDown' || event.key === 'ArrowUp') { end(true); move(event.key === 'ArrowDown' ? 1 : -1, 0); }
      else return;
      event.preventDefault(); event.stopPropagation();
    });
  }
  table.addEventListener('mousedown', event => {
    const cell = event.target.closest('td[data-part]');
    if (cell && !cell.contains(input)) { if (input) input.blur(); go(cell, false); }
  });
  table.addEventListener('dblclick', () => edit());
  table.addEventListener('keydown', event => {
    if (input || event.ctrlKey || event.metaKey || event.altKey) return;
    const steps = {ArrowDown: [1, 0], ArrowUp: [-1, 0], ArrowRight: [0, 1], ArrowLeft: [0, -1]}[event.key];
    if (steps) move(...steps);
    else if (event.key === 'Enter' || event.key === 'F2') edit();
    else if (event.key === 'Escape') put(active, active.dataset.was);
    else if (event.key === 'Delete' || event.key === 'Backspace') put(active, '');
    else if (event.key === 'Home') go(all[where(active)[0]][0]);
    else if (event.key === 'End') go(all[where(active)[0]].at(-1));
    else if (event.key.length === 1) edit(event.key);
    else return;
    event.preventDefault();
  });
  table.addEventListener('paste', event => {
    if (input) return;
    const lines = event.clipboardData.getData('text/plain').replace(/\r?\n$/, '').split(/\r?\n/), [row, column] = where(active);
    lines.slice(0, all.length - row).forEach((line, down) => line.split('\t').slice(0, all[row + down].length - column).forEach((text, right) => {
      if (text.trim()) put(all[row + down][column + right], text.trim().slice(0, 60));
    }));
    event.preventDefault();
  });

  // ---- what is sent

  function rowOf(cell) {
    const row = cell.closest('tr'), said = {};
    if (kind === 'readings') return {name: cell.dataset.name, day: cell.dataset.day, amount: cell.textContent};
    for (const each of cellsOf(row)) said[each.dataset.part] = each.textContent || each.dataset.default || '';
    if (kind === 'dips') return {[form.dataset.sending ? 'tank' : 'name']: row.dataset.name, day: row.dataset.day, ...said};
    return said;
  }
  function gathered() {
    form.dataset.sending = 'yes';
    const cells = kind === 'readings' ? changed() : [...new Set(changed().map(cell => cell.closest('tr')))].map(row => cellsOf(row)[0]);
    const found = cells.map(rowOf);
    delete form.dataset.sending;
    return kind === 'dips' ? found.filter((row, at) => row.level || cells[at].dataset.was) : found;
  }
  // ---- what is said of it

  const {rules, script, wasm, worker} = form.dataset;
  const opened = rules && typeof WebAssembly === 'object'
    ? import('./judging/judge.js').then(({Judge}) => Judge.open({rules, script, wasm, worker})).catch(() => null) : Promise.resolve(null);
  opened.then(here => { isHere = Boolean(here); form.dataset.here = isHere ? 'yes' : 'no'; });
  const late = new Promise(done => setTimeout(done, 3000, null));
  // Whether the cell's day has a figure already, which is then amended.
  function isBooked(cell) {
    const figure = kind === 'dips' ? cellsOf(cell.closest('tr')).find(each => each.dataset.part === 'level') : cell;
    return Boolean(figure.dataset.was);
  }
  async function judge() {
    const cells = [...waiting].slice(0, 400);
    waiting = new Set([...waiting].slice(400));
    if (kind === 'assays' || kind === 'estimates' || !cells.length) return;
    const asked = cells.map(cell => ({cell, text: cell.textContent, row: rowOf(cell)}));
    const here = await Promise.race([opened, late]), left = [];
    for (const one of asked) {
      const said = here && await here.judge({...one.row, was: isBooked(one.cell)}).catch(() => null);
      if (said) show(one, said); else left.push(one);
    }
    if (left.length) await ask(left);
    if (waiting.size) judge();
  }
  async function ask(some) {
    const body = new FormData();
    body.append('cells', JSON.stringify(some.map(({row}) => row)));
    try {
      const answer = await fetch(form.dataset.judge, {method: 'POST', body, headers: {'X-CSRFToken': token}});
      if (!answer.ok) throw new Error(answer.status);
      (await answer.json()).cells.forEach((said, at) => show(some[at], said));
    } catch { told.textContent = '…'; }
  }
  function show({cell, text}, said) {
    if (cell.textContent !== text) return; // it was typed over meanwhile
    cell.classList.toggle('fault', said.level === 'fault'); cell.classList.toggle('look', said.level === 'look');
    Object.assign(cell.dataset, {level: said.level, said: said.said});
    if (said.said) cell.title = said.said;
    if (said.level === 'fault') cell.setAttribute('aria-invalid', 'true');
    const row = cell.closest('tr'), volume = row.querySelector('[data-volume]'), mass = row.querySelector('[data-mass]');
    if (volume) volume.textContent = said.volume;
    if (mass) mass.textContent = said.mass;
    if (said.level) { told.textContent = `${cell.dataset.name || ''} ${cell.dataset.day || ''} ${said.said}`.trim(); told.className = `told ${said.level}`; }
  }
  form.addEventListener('submit', () => { if (input) input.blur(); form.elements.cells.value = JSON.stringify(gathered()); leaving = true; });
  addEventListener('beforeunload', event => { if (!leaving && edited.size) event.preventDefault(); });
})();
