'use strict';
// The desk works without this; it spares clicks. No address but the server's own is asked.
document.addEventListener('submit', event => {
  const form = event.target;
  if (form.method !== 'post' || form.hasAttribute('data-again')) return;
  if (form.dataset.sent) { event.preventDefault(); return; }
  form.dataset.sent = 'yes';
  const name = event.submitter && event.submitter.name;
  setTimeout(() => { for (const button of form.querySelectorAll('button')) if (button.name !== name || !name) button.disabled = true; }, 0);
});
// A page that comes back by the back button has its forms as they were: the key then says what was sent.
window.addEventListener('pageshow', () => {
  for (const form of document.querySelectorAll('form[data-sent]')) {
    delete form.dataset.sent;
    for (const button of form.querySelectorAll('button')) button.disabled = false;
  }
});
for (const box of document.querySelectorAll('[data-drop]')) {
  const input = box.querySelector('input[type=file]'), called = box.querySelector('[data-called]'), said = box.querySelector('[data-dropped]');
  const tables = () => [...input.files].filter(file => /\.(csv|txt|tsv)$/i.test(file.name));
  const show = folder => {
    if (input.files.length) said.textContent = [...input.files].map(file => file.name).join(', ');
    if (called) called.hidden = !tables().length;
    const field = called && called.querySelector('input');
    if (field && folder && !field.value) field.value = folder;
  };
  input.addEventListener('change', () => show(''));
  box.addEventListener('dragover', event => { event.preventDefault(); box.classList.add('over'); });
  box.addEventListener('dragleave', () => box.classList.remove('over'));
  box.addEventListener('drop', async event => {
    event.preventDefault(); box.classList.remove('over');
    const entries = [...event.dataTransfer.items].map(item => item.webkitGetAsEntry && item.webkitGetAsEntry()).filter(Boolean);
    const folder = entries.length === 1 && entries[0].isDirectory ? entries[0] : null;
    const files = folder ? await filesOf(folder) : [...event.dataTransfer.files];
    const kept = new DataTransfer();
    for (const file of files) kept.items.add(file);
    input.files = kept.files;
    show(folder ? folder.name : '');
  });
  if (called) called.hidden = !tables().length && !called.querySelector('input').value;
}
function filesOf(folder) {
  const reader = folder.createReader(), found = [];
  return new Promise((done, failed) => {
    const more = () => reader.readEntries(async entries => {
      if (!entries.length) return done(found);
      for (const entry of entries) if (entry.isFile) found.push(await new Promise((give, not) => entry.file(give, not)));
      more();
    }, failed);
    more();
  });
}
for (const shape of document.querySelectorAll('[data-style]'))
  for (const part of shape.dataset.style.split(';')) {
    const [name, value] = part.split(':').map(text => text.trim());
    if (name && value) shape.style.setProperty(name, value);
  }
// What is too long for a page comes after it.
for (const place of document.querySelectorAll('[data-load]'))
  fetch(place.dataset.load).then(answer => answer.ok ? answer.text() : Promise.reject(answer.status)).then(text => {
    const made = new DOMParser().parseFromString(text, 'text/html').body.firstElementChild;
    if (made) place.replaceWith(made);
  }).catch(() => {}); // its link is there
