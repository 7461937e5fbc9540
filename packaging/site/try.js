'use strict';
/**
 * Examples of these pages that can be changed and run: a button beside each, a text to change, and what the proved core answers.
 *
 * Scripts are classic ones and are put into the page by their addresses, since a page that was opened as a file can read nothing. The
 * core, and an example that is longer than the page shows, come with the first click.
 */
(() => {
  const folder = new URL('try/', document.currentScript.src), MOST_LINES = 2000, MOST_REFUSED = 20;
  const given = globalThis.plantbalTry = { core: null, texts: {} };
  const scripts = new Map();
  let opened = null;

  function script(name) {
    if (!scripts.has(name)) {
      scripts.set(name, new Promise((done, failed) => {
        const element = document.createElement('script');
        Object.assign(element, { src: new URL(name, folder), onload: done, onerror: () => { scripts.delete(name); failed(new Error(`${name} isn't beside this page`)); } });
        document.head.append(element);
      }));
    }
    return scripts.get(name);
  }
  async function coreOf() {
    await script('core.js');
    opened ??= given.core.open();
    return opened;
  }
  async function textOf(place) {
    const { from } = place.dataset;
    if (!from) return blockAfter(place).textContent;
    await script(`${from}.js`);
    return given.texts[from];
  }
  function blockAfter(place) {
    let next = place.nextElementSibling;
    while (next && !next.querySelector('pre')) next = next.nextElementSibling;
    return next.querySelector('pre');
  }
  function h(tag, values = {}, ...inside) {
    const element = document.createElement(tag);
    for (const [name, value] of Object.entries(values)) if (name.startsWith('on')) element[name] = value; else element.setAttribute(name, value);
    element.append(...inside.filter(each => each !== null));
    return element;
  }

  // The options of the words that stand on the page, such as run --eliminate 3.
  function optionsOf(words) {
    const [mode, ...rest] = words.split(' '), options = {};
    rest.forEach((word, at) => { if (word === '--tests') options.tests = true; else if (word.startsWith('--')) options[word.slice(2)] = Number(rest[at + 1]); });
    return { mode, options };
  }

  function begin(place) {
    const button = h('button', { type: 'button', class: 'try-begin' }, optionsOf(place.dataset.words).mode === 'check' ? 'Change and check' : 'Change and run');
    place.append(button);
    button.onclick = async () => {
      button.disabled = true;
      try {
        const [text, core] = await Promise.all([textOf(place), coreOf()]);
        open(place, button, text, core);
      } catch (fault) {
        const said = `This browser can't run the core: ${fault.message}. Firefox 113, Chrome or Edge 103, Safari 16.4 and later can.`;
        place.querySelector('.try-said')?.remove();
        place.append(h('p', { class: 'try-said', role: 'status' }, said));
        button.disabled = false;
      }
    };
  }

  function open(place, button, text, core) {
    const { mode, options } = optionsOf(place.dataset.words), what = mode === 'check' ? 'report' : 'session';
    const box = h('textarea', { spellcheck: 'false', autocomplete: 'off', autocapitalize: 'off', wrap: 'off', rows: Math.min(24, text.split('\n').length + 1), 'aria-label': `The ${what}, to be changed` });
    const run = h('button', { type: 'button', class: 'try-run' }, mode === 'check' ? 'Check' : 'Run'), reset = h('button', { type: 'button' }, 'Reset');
    const stop = h('button', { type: 'button', hidden: '' }, 'Stop'), said = h('p', { class: 'try-said', role: 'status' }), out = h('div', { class: 'try-out' });
    const copy = h('pre', { class: 'try-copy' });
    let stopping = null;
    box.value = text;
    run.onclick = async () => {
      run.disabled = true; stop.hidden = false; said.textContent = 'Running …';
      stopping = new AbortController();
      try {
        const answer = await (mode === 'check' ? core.check(box.value, stopping) : core.run(box.value, { ...options, signal: stopping.signal }));
        show(answer);
      } catch (fault) {
        out.replaceChildren();
        said.textContent = fault.reason === 'stopped' ? 'Stopped.' : `The core failed: ${fault.message}.`;
      }
      stopping = null; run.disabled = false; stop.hidden = true;
      place.dataset.runs = String(Number(place.dataset.runs ?? 0) + 1);
    };
    function show({ status, text: bytes, milliseconds }) {
      const output = new TextDecoder().decode(bytes), lines = output.split('\n'), { total, rows } = mode === 'check' ? { total: 0, rows: [] } : core.refusals(box.value, output, MOST_REFUSED);
      const refused = total ? `; ${total === 1 ? '1 row is' : `${total} rows are`} refused` : '';
      said.textContent = `plantbal ${place.dataset.words}: status ${status}, ${Math.round(milliseconds)} ms${refused}.`;
      const more = lines.length - 1 - MOST_LINES;
      out.replaceChildren(
        rows.length ? h('ol', { class: 'try-refused' }, ...rows.map(row => h('li', {}, `Line ${row.line}: ${row.why} ${row.remedy}`, h('pre', {}, row.picture.line.slice(0, row.picture.from),
          h('mark', {}, row.picture.line.slice(row.picture.from, row.picture.to)), row.picture.line.slice(row.picture.to))))) : '',
        h('pre', { class: 'try-output', tabindex: '0', role: 'region', 'aria-label': 'The output' }, more > 0 ? lines.slice(0, MOST_LINES).join('\n') : output),
        more > 0 ? h('p', {}, `${more.toLocaleString('en')} more lines`) : '');
    }
    stop.onclick = () => stopping?.abort();
    reset.onclick = () => { box.value = text; out.replaceChildren(); said.textContent = ''; box.focus(); };
    box.addEventListener('keydown', event => { if (event.key === 'Enter' && (event.ctrlKey || event.metaKey)) { event.preventDefault(); run.click(); } });
    // a text area is cut by a printer, and a text isn't
    addEventListener('beforeprint', () => { copy.textContent = box.value; });
    button.hidden = true;
    place.classList.add('open');
    place.append(box, copy, h('p', { class: 'try-acts' }, run, reset, stop), said, out);
    box.focus();
  }
  for (const place of document.querySelectorAll('.try')) begin(place);
})();
