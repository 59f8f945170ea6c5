// The files that the page brings with it, to choose from; and a file in a link.
'use strict';

class Library {
  constructor(entries, dialog, take) {
    this.entries = entries; // { title, group, files: [{ name, button, text, command }] }
    this.dialog = dialog;
    this.search = dialog.querySelector('input');
    this.list = dialog.querySelector('.list');
    this.take = take;
    this.search.addEventListener('input', () => this.show());
    this.search.addEventListener('keydown', (event) => {
      const first = this.list.querySelector('button');
      if (event.key === 'Enter') event.preventDefault();
      if (event.key === 'Enter' && first) first.click();
    });
  }

  open() {
    this.search.value = '';
    this.show();
    this.dialog.showModal();
    this.search.focus();
  }

  find(name) {
    for (const entry of this.entries) {
      const file = entry.files.find((it) => it.name === name);
      if (file) return { ...file, title: entry.title };
    }
    return null;
  }

  show() {
    const words = this.search.value.toLowerCase().split(/\s+/);
    const fits = (entry) => words.every((word) => `${entry.group} ${entry.title} ${entry.source}`.toLowerCase().includes(word));
    const rows = [];
    let group = null;
    for (const entry of this.entries.filter(fits)) {
      if (entry.group !== group) rows.push(element('h3', {}, (group = entry.group)));
      const buttons = entry.files.map((file) => {
        const button = element('button', { type: 'button', title: file.name }, file.button);
        button.addEventListener('click', () => {
          this.dialog.close();
          this.take({ ...file, title: entry.title });
        });
        return button;
      });
      const title = element('span', {}, entry.title);
      if (entry.source) title.append(element('span', { className: 'aside' }, ` ${entry.source}`));
      rows.push(element('div', { className: 'entry' }, title, element('span', { className: 'buttons' }, ...buttons)));
    }
    this.list.replaceChildren(...(rows.length ? rows : ['There is none with these words.']));
  }
}

// A text as it stands behind `file=` in a link: deflated, in the letters of base64 that an address may have.
async function packed(text) {
  const stream = new Blob([text]).stream().pipeThrough(new CompressionStream('deflate-raw'));
  const bytes = new Uint8Array(await new Response(stream).arrayBuffer());
  let letters = '';
  for (let at = 0; at < bytes.length; at += 4096) letters += String.fromCharCode(...bytes.subarray(at, at + 4096));
  return btoa(letters).replaceAll('+', '-').replaceAll('/', '_').replace(/=+$/, '');
}

const OPENED_AT_MOST = 1 << 24; // bytes, as many as a file may have

async function opened(letters) {
  const bytes = Uint8Array.from(atob(letters.replaceAll('-', '+').replaceAll('_', '/')), (it) => it.charCodeAt(0));
  const reader = new Blob([bytes]).stream().pipeThrough(new DecompressionStream('deflate-raw')).getReader();
  const parts = [];
  let size = 0;
  for (let part = await reader.read(); !part.done; part = await reader.read()) {
    parts.push(part.value);
    size += part.value.length;
    if (size > OPENED_AT_MOST) throw new RangeError('its file is larger than 16 MB');
  }
  return new TextDecoder('utf-8', { fatal: true }).decode(await new Blob(parts).arrayBuffer());
}
