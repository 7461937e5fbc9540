'use strict';
// Larger, smaller, drag, and find in the drawing; page.js chooses and draws what lies near.
(() => {
  const figure = document.querySelector('figure.drawing'), svg = figure && figure.querySelector('svg.plant');
  const find = document.getElementById('find'), names = document.getElementById('names');
  if (!svg) return;
  const canvas = figure.querySelector('.canvas'), section = figure.closest('.period');
  let scale = 1;
  const base = () => svg.viewBox.baseVal.width;
  // What was found, or else the middle, stays in the middle.
  const keep = change => {
    const x = (canvas.scrollLeft + canvas.clientWidth / 2) / canvas.scrollWidth, y = (canvas.scrollTop + canvas.clientHeight / 2) / canvas.scrollHeight;
    change();
    const found = svg.querySelector('g.found');
    if (found) found.scrollIntoView({block: 'nearest', inline: 'center'});
    else canvas.scrollTo(x * canvas.scrollWidth - canvas.clientWidth / 2, y * canvas.scrollHeight - canvas.clientHeight / 2);
  };
  const zoom = by => keep(() => {
    scale = by ? Math.min(8, Math.max(.2, scale * by)) : 1;
    if (scale === 1) { svg.style.removeProperty('width'); svg.style.removeProperty('max-height'); svg.classList.remove('zoomed'); return; }
    svg.classList.add('zoomed');
    svg.style.width = `${Math.round(base() * scale)}px`;
  });
  for (const button of document.querySelectorAll('[data-zoom]')) button.addEventListener('click', () => zoom(Number(button.dataset.zoom)));
  canvas.addEventListener('wheel', event => { if (event.ctrlKey) { event.preventDefault(); zoom(event.deltaY < 0 ? 1.15 : .87); } }, {passive: false});
  let from = null;
  canvas.addEventListener('pointerdown', event => { if (event.button === 0) from = [event.clientX, event.clientY, canvas.scrollLeft, canvas.scrollTop]; });
  addEventListener('pointermove', event => { if (from) canvas.scrollTo(from[2] - event.clientX + from[0], from[3] - event.clientY + from[1]); });
  addEventListener('pointerup', () => { from = null; });
  const rows = section ? [...section.querySelectorAll('tr[data-stream]')] : [];
  const nodes = new Set();
  for (const row of rows) {
    const option = document.createElement('option'); option.value = row.dataset.stream; names.append(option);
    for (const end of [row.dataset.from, row.dataset.to]) if (end && end !== 'env') nodes.add(end);
  }
  for (const node of nodes) { const option = document.createElement('option'); option.value = node; names.append(option); }
  find.addEventListener('input', () => {
    const wanted = find.value.trim().toLowerCase();
    for (const shape of svg.querySelectorAll('g.found')) shape.classList.remove('found');
    if (!wanted) return;
    const row = rows.find(each => each.dataset.stream.toLowerCase() === wanted) || rows.find(each => [each.dataset.from, each.dataset.to].some(end => end && end.toLowerCase() === wanted));
    if (row && row.dataset.stream.toLowerCase() === wanted) row.click();
    else if (row && !svg.querySelector(`[data-node="${CSS.escape(find.value.trim())}"]`)) row.click();
    for (const shape of svg.querySelectorAll('[data-node], [data-arrow]'))
      if ((shape.dataset.node || shape.dataset.arrow).toLowerCase().includes(wanted)) shape.classList.add('found');
    const first = svg.querySelector('g.found');
    if (first) first.scrollIntoView({block: 'center', inline: 'center'});
  });
})();
