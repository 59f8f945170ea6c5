// The box for the file: what is typed goes into a text area whose letters can't be seen, and stands in colours behind it.
'use strict';

const COLOURED_AT_MOST = 200000; // characters; more are left plain
const TYPED_AT_MOST = 100000; // characters; more are put in at once, which can't be undone

function element(name, properties = {}, ...inside) {
  const it = Object.assign(document.createElement(name), properties);
  it.append(...inside);
  return it;
}

class Editor {
  constructor(root, changed) {
    this.root = root;
    this.area = root.querySelector('textarea');
    this.colours = root.querySelector('.colours');
    this.numbers = root.querySelector('.numbers');
    this.strips = root.querySelector('.strips');
    this.kind = 'spi'; // or nar, or bench
    this.marks = [];
    this.notes = [];
    this.area.addEventListener('input', () => {
      this.marks = [];
      this.notes = [];
      this.show();
      changed();
    });
    this.area.addEventListener('keydown', (event) => this.key(event));
  }

  get text() {
    return this.area.value;
  }

  // Puts a text in place of the whole, or of a part, as if it were typed: it can be undone.
  put(text, from = 0, to = this.text.length) {
    this.area.focus();
    this.area.setSelectionRange(from, to);
    const isTyped = text.length <= TYPED_AT_MOST && this.text.length <= TYPED_AT_MOST;
    if (isTyped && document.execCommand(text ? 'insertText' : 'delete', false, text)) return;
    this.reset(this.text.slice(0, from) + text + this.text.slice(to));
  }

  // Puts a text in place of the whole; what was there is forgotten.
  reset(text) {
    this.area.value = text;
    this.area.dispatchEvent(new Event('input'));
  }

  // A new line starts under the first word of the one before.
  key(event) {
    if (event.key !== 'Enter' || event.ctrlKey || event.metaKey || event.altKey || event.isComposing) return;
    const start = this.text.lastIndexOf('\n', this.area.selectionStart - 1) + 1;
    const blank = /^[ \t]*/.exec(this.text.slice(start, this.area.selectionStart))[0];
    if (!blank) return;
    event.preventDefault();
    this.put(`\n${blank}`, this.area.selectionStart, this.area.selectionEnd);
  }

  // Colours the text as one of this kind from now on.
  colour(kind) {
    const isNew = kind !== this.kind;
    this.kind = kind;
    if (isNew) this.show();
  }

  // Marks places: each is { from, to, words }. A note, { from, words, isGood }, stands at the end of a line and marks nothing.
  mark(marks, notes = []) {
    this.marks = marks;
    this.notes = notes;
    this.area.setAttribute('aria-invalid', String(marks.length > 0));
    this.show();
  }

  show() {
    const { text } = this;
    const lines = text.split('\n').length;
    if (this.lines !== lines) {
      this.lines = lines;
      this.numbers.textContent = Array.from({ length: lines }, (_, index) => index + 1).join('\n');
    }
    this.colours.replaceChildren(...this.pieces(text), '\n');
    this.strips.replaceChildren(...this.marks.map(({ from }) => {
      const strip = element('div', { className: 'strip' });
      strip.style.setProperty('--line', placeOf(text, from).line);
      return strip;
    }));
  }

  // The text in coloured pieces, with the marks in it, and the words of each at the end of its line.
  pieces(text) {
    const tokens = text.length > COLOURED_AT_MOST ? [] : tokensOf(text);
    if (this.kind !== 'spi') colourItems(tokens, this.kind === 'bench');
    const ranges = tokens.map(({ at, word, kind }) => ({ from: at, to: at + word.length, kind }));
    for (const { from, to } of this.marks) {
      const index = ranges.findIndex((it) => it.to > from);
      const range = index < 0 ? null : ranges[index];
      if (range && range.from <= from) range.isWrong = true;
      else ranges.splice(index < 0 ? ranges.length : index, 0, { from, to, kind: 'none', isWrong: true });
    }
    const pieces = [];
    let at = 0;
    for (const { from, to, kind, isWrong } of ranges) {
      pieces.push(...this.plain(text, at, from));
      const shown = text.slice(from, to) || ' ';
      pieces.push(element('span', { className: `token-${kind}${isWrong ? ' wrong' : ''}` }, shown === '\n' ? ' \n' : shown));
      at = to;
    }
    pieces.push(...this.plain(text, at, text.length + 1));
    return pieces;
  }

  // What stands between two coloured pieces, with the notes of the lines that end in it.
  plain(text, from, to) {
    const ends = new Map();
    for (const { from: at, words, isGood } of [...this.marks, ...this.notes]) {
      const end = lineEnd(text, at);
      if (end < from || end >= to) continue;
      const note = element('span', { className: isGood ? 'note good' : 'note' }, words);
      ends.set(end, [...(ends.get(end) || []), note]);
    }
    const pieces = [];
    for (const [end, notes] of [...ends].sort(([one], [other]) => one - other)) {
      pieces.push(text.slice(from, end), element('span', { className: 'notes' }, ...notes));
      from = end;
    }
    pieces.push(text.slice(from, to));
    return pieces;
  }

  // Selects a range, and brings it into view.
  select(from, to) {
    this.area.focus({ preventScroll: true });
    this.area.setSelectionRange(from, to);
    const { line, character } = placeOf(this.text, from);
    const style = getComputedStyle(this.colours);
    const height = parseFloat(style.lineHeight);
    const letter = this.letter();
    this.root.scrollTop = Math.max(0, line * height - this.root.clientHeight / 2);
    const left = character * letter;
    const room = this.root.clientWidth - this.numbers.offsetWidth - 8 * letter;
    if (left < this.root.scrollLeft || left > this.root.scrollLeft + room) this.root.scrollLeft = Math.max(0, left - room / 2);
    this.root.scrollIntoView({ block: 'nearest' });
  }

  letter() {
    const probe = element('span', { textContent: '0'.repeat(20) });
    this.colours.append(probe);
    const width = probe.getBoundingClientRect().width / 20;
    probe.remove();
    return width;
  }
}

function lineEnd(text, offset) {
  const end = text.indexOf('\n', offset);
  return end < 0 ? text.length : end;
}
