// The page: what is typed is checked at once, and the command that is pressed answers again at each change.
'use strict';

const byId = (id) => document.getElementById(id);
const DRAFT = 'cryptyc';
const KINDS = { narrate: 'nar', bench: 'bench' }; // of commands that read no file; the ending of what they read
const LINKED_AT_MOST = 60000; // characters; a link may be longer, and is then warned of
const NEEDS = 'It needs WebAssembly with 64-bit memory, which Chromium 133 and Firefox 134 have, and later ones.';

class Page {
  constructor(machine, { entries, reasons }) {
    this.machine = machine;
    this.reasons = reasons;
    this.command = 'check';
    this.isWaiting = true;
    this.faults = { check: null, command: null };
    this.notes = [];
    this.editor = new Editor(byId('editor'), () => this.changed());
    this.isTaken = false;
    this.answer = new Answer(byId('answer'), this);
    this.library = new Library(entries, byId('library'), (file) => this.take(file.text, file.title, file.name, file.command));
    for (const method of ['put', 'replace', 'select', 'choose']) this[method] = this[method].bind(this);
    this.listen();
  }

  listen() {
    for (const { name, says } of COMMANDS) {
      const it = button(name, () => this.choose(name));
      it.title = says;
      byId('commands').append(it);
    }
    for (const id of ['steps', 'player', 'known', 'sessions']) byId(id).addEventListener('input', () => this.ask());
    byId('open-library').addEventListener('click', () => this.library.open());
    byId('open-file').addEventListener('click', () => byId('file').click());
    byId('file').addEventListener('change', () => this.open(byId('file').files[0]));
    byId('save-file').addEventListener('click', () => this.save());
    byId('open-link').addEventListener('click', () => this.link());
    byId('copy').addEventListener('click', () => this.copy());
    byId('go').addEventListener('click', () => this.go());
    addEventListener('keydown', (event) => this.key(event));
    addEventListener('hashchange', () => this.follow());
    addEventListener('dragover', (event) => event.preventDefault());
    addEventListener('drop', (event) => {
      event.preventDefault();
      this.open(event.dataTransfer.files[0]);
    });
  }

  key(event) {
    const isHeld = event.ctrlKey || event.metaKey;
    const done = event.key === 'F8' ? 'go' : isHeld ? { Enter: 'ask', s: 'save' }[event.key] : null;
    if (!done || document.querySelector('dialog[open]')) return;
    event.preventDefault();
    this[done]();
  }

  // Takes a whole file, in place of the one that is there.
  take(text, title, name, command = 'check') {
    for (const dialog of document.querySelectorAll('dialog[open]')) dialog.close(); // the text goes where the focus is
    this.title = title;
    this.fileName = name;
    const asked = /^\/\/ knows (\d+):/m.exec(text); // in the library, of a new key
    if (asked) [, byId('known').value] = asked;
    this.choose(command, false);
    this.isTaken = true;
    if (!this.editor.text) this.editor.reset(text);
    else this.editor.put(text);
    this.isTaken = false;
    this.editor.area.setSelectionRange(0, 0);
    this.editor.root.scrollTo(0, 0);
    this.showName();
  }

  showName() {
    byId('name').textContent = this.title ? `${this.title} · ${this.fileName}` : this.fileName || '';
  }

  changed() {
    if (location.hash && !this.isTaken) history.replaceState(null, '', location.href.split('#')[0]);
    this.keepDraft();
    clearTimeout(this.timer);
    this.isWaiting = true;
    this.timer = setTimeout(() => this.ask(), this.editor.text.length > COLOURED_AT_MOST ? 500 : 60);
  }

  keepDraft() {
    const { title, fileName, command } = this;
    try {
      sessionStorage.setItem(DRAFT, JSON.stringify({ text: this.editor.text, title, fileName, command }));
    } catch {
      // the file is too large to be kept, or the browser keeps nothing
    }
  }

  choose(command, isAsked = true) {
    this.command = command;
    this.editor.colour(this.kind);
    for (const it of byId('commands').children) it.setAttribute('aria-pressed', String(it.textContent === command));
    for (const it of ['play', 'knows', 'load']) byId(`words-of-${it}`).hidden = command !== it;
    this.keepDraft();
    if (isAsked) this.ask();
  }

  // The ending of what the command reads.
  get kind() {
    return KINDS[this.command] || 'spi';
  }

  // Whether the answers shown are those to the text that is there.
  get isDone() {
    return !this.isWaiting && this.answered === this.asked;
  }

  words() {
    if (this.command === 'load') return ['load', byId('sessions').value];
    if (this.command === 'knows') return ['knows', byId('known').value];
    if (this.command !== 'play') return [this.command];
    const player = byId('player').value;
    return ['play', '--steps', byId('steps').value, ...(player ? ['--player', player] : [])];
  }

  // Asks for the check, and for the command that is pressed; an answer to a text that has changed meanwhile isn't shown.
  // A narration or a bench is no file to check: where such a command is pressed, its answer stands in the place of the check.
  async ask() {
    clearTimeout(this.timer);
    this.isWaiting = false;
    const { text } = this.editor;
    const { command } = this;
    const number = (this.asked = (this.asked || 0) + 1);
    const isOld = () => number !== this.asked;
    byId('verdict').setAttribute('aria-busy', 'true');
    const first = command in KINDS ? command : 'check';
    const check = await this.machine.run([first], text, 'check');
    if (!check || isOld()) return;
    this.faults = { check: faultOf(check), command: null };
    this.notes = command === 'bench' && check.status < 2 ? new Bench(text).notes(check.output) : [];
    this.showCheck(check, text, first);
    try {
      if (command === first) this.answer.plain(first, check);
      else await this.askCommand(command, text, isOld);
    } catch (error) {
      this.answer.show(element('p', { className: 'bad' }, `The answer can’t be shown: ${error.message}.`));
    }
    if (isOld()) return;
    this.showMarks(text);
    this.answered = number;
  }

  async askCommand(command, text, isOld) {
    const outcome = await this.machine.run(this.words(), command === 'load' ? '' : text, 'command');
    if (!outcome || isOld()) return;
    const fault = faultOf(outcome);
    if (command !== 'load') this.faults.command = fault;
    const isRefusedStep = command === 'replay' && fault && fault.number >= 60 && fault.number < 70;
    const isRun = outcome.status < 2 && (command === 'replay' || command === 'play');
    if (isRefusedStep) await this.showPart(outcome, text, fault, isOld);
    else if (isRun) await this.showRun(command, outcome, text, isOld);
    else this.answer.plain(command, outcome);
  }

  // A replay, or a play with the steps behind the file in place of what stands there.
  async showRun(command, outcome, text, isOld) {
    const whole = command === 'replay' ? text : withPart(text, 'schedule', outcome.output);
    const replayed = command === 'replay' ? outcome : await this.machine.run(['replay'], whole, 'replay');
    if (replayed && !isOld()) this.answer.run(command, outcome, whole, replayed);
  }

  // A replay of which a step is refused: the steps before it are shown.
  async showPart(outcome, text, fault, isOld) {
    const offset = offsetOf(text, fault.line, fault.column);
    const replayed = await this.machine.run(['replay'], text.slice(0, offset), 'replay');
    if (!replayed || isOld()) return;
    const count = new Reader(text).file().steps.findIndex((step) => step.at === offset);
    this.answer.run('replay', outcome, text, replayed, count);
  }

  showCheck(check, text, command) {
    const verdict = byId('verdict');
    verdict.removeAttribute('aria-busy');
    verdict.className = check.status === 0 ? 'good' : 'bad';
    if (check.failure) verdict.textContent = `there is no answer: ${check.failure}`;
    else if (command === 'narrate' && check.status === 0) verdict.textContent = 'a narration';
    else if (command === 'bench' && check.status < 2) verdict.textContent = `a bench; at its end ${check.status ? 'no' : 'yes'}`;
    else verdict.textContent = check.output.trim();
    this.showMarks(text);
  }

  showMarks(text) {
    const { check, command } = this.faults;
    const faults = [check, command].filter((it) => it && it.line);
    const marks = new Map();
    for (const fault of faults) {
      const from = offsetOf(text, fault.line, fault.column);
      marks.set(from, { from, to: endOfToken(text, from), words: wordsOf(fault) });
    }
    byId('go').hidden = !marks.size;
    this.editor.mark([...marks.values()], this.notes);
  }

  // Goes to the next mark behind the caret, or to the first.
  go() {
    const { marks, area } = this.editor;
    const inOrder = [...marks].sort((one, other) => one.from - other.from);
    const next = inOrder.find((it) => it.from > area.selectionStart) || inOrder[0];
    if (next) this.editor.select(next.from, next.to);
  }

  select(from, to) {
    this.editor.select(from, to);
  }

  // Puts a part, as derive and play write it, behind the file, or in place of the part that is there.
  put(part, text, command) {
    this.choose(command, false);
    this.editor.put(withPart(this.editor.text, part, text));
  }

  replace(text) {
    this.editor.put(text);
  }

  async open(file) {
    if (!file) return;
    byId('file').value = '';
    const bytes = new Uint8Array(await file.arrayBuffer());
    try {
      const command = Object.keys(KINDS).find((it) => file.name.endsWith(`.${KINDS[it]}`));
      this.take(new TextDecoder('utf-8', { fatal: true, ignoreBOM: true }).decode(bytes), '', file.name, command);
    } catch {
      this.answer.plain('check', await this.machine.run(['check'], bytes)); // 10 NotUtf8, with its place
    }
  }

  save() {
    const address = URL.createObjectURL(new Blob([this.editor.text], { type: 'text/plain' }));
    const name = (this.fileName || 'protocol.spi').replaceAll('/', '_');
    element('a', { href: address, download: /\.(spi|nar|bench)$/.test(name) ? name : `${name}.${this.kind}` }).click();
    setTimeout(() => URL.revokeObjectURL(address), 10000);
  }

  async link() {
    const address = `${location.href.split('#')[0]}#command=${this.command}&file=${await packed(this.editor.text)}`;
    const length = address.length.toLocaleString('en');
    const says = ['Whoever opens this page by the link sees the file.'];
    says.push(`It is in the link itself (${length} characters), and is sent to no server.`);
    if (address.length > LINKED_AT_MOST) says.push('Links as long as this are cut off in some places.');
    byId('link-says').textContent = says.join(' ');
    byId('address').value = address;
    byId('copy').textContent = 'Copy';
    byId('link').showModal();
    byId('address').select();
  }

  async copy() {
    byId('address').select();
    try {
      await navigator.clipboard.writeText(byId('address').value);
      byId('copy').textContent = 'Copied';
    } catch {
      byId('copy').textContent = document.execCommand('copy') ? 'Copied' : 'Press Ctrl+C';
    }
  }

  // Takes the file that the address holds or names; whether there is one.
  async follow() {
    const words = new URLSearchParams(location.hash.slice(1));
    const command = COMMANDS.some((it) => it.name === words.get('command')) ? words.get('command') : undefined;
    const named = this.library.find(words.get('name'));
    try {
      if (words.has('file')) this.take(await opened(words.get('file')), '', '', command);
      else if (named) this.take(named.text, named.title, named.name, command || named.command);
      else return false;
    } catch (error) {
      this.answer.show(element('p', { className: 'bad' }, `The link holds no file: ${error.message || error}.`));
      return false;
    }
    return true;
  }

  async start() {
    if (await this.follow()) return;
    let draft = null;
    try {
      draft = JSON.parse(sessionStorage.getItem(DRAFT));
    } catch {
      // nothing is kept
    }
    if (draft && draft.text) {
      this.take(draft.text, draft.title, draft.fileName, draft.command);
    } else {
      const { text, title, name } = this.library.find('examples/nonce_handshake');
      this.take(text, title, name);
    }
  }
}

// A text with a part behind it that begins with its own word. A part of this kind that is there makes way for it, and the
// parts that belong behind it stay there: the opponent comes first, then the schedule, and then the derivation.
function withPart(text, part, more) {
  const tokens = tokensOf(text);
  const order = ['opponent', 'schedule', 'derivation'];
  const behind = order.slice(order.indexOf(part) + 1);
  const start = tokens.find((it) => it.word === part);
  const next = tokens.find((it) => behind.includes(it.word) && it.kind === 'declaration');
  const from = start ? start.at : next ? next.at : text.length;
  const to = next ? next.at : text.length;
  const before = text.slice(0, from);
  return `${before}${/\n$/.test(before) ? '' : '\n'}${more}${text.slice(to)}`;
}

async function main() {
  let module = null;
  try {
    module = await WebAssembly.compile(await unpacked(byId('program').textContent));
  } catch (error) {
    byId('verdict').textContent = `This browser can’t run the checker. ${NEEDS}`;
    byId('verdict').className = 'bad';
    byId('verdict').title = String(error);
    return;
  }
  const texts = JSON.parse(new TextDecoder().decode(await unpacked(byId('texts').textContent)));
  window.cryptyc = Object.assign(new Page(new Machine(module), texts), { parts: { Machine, Run, Bench, tokensOf } });
  await window.cryptyc.start();
}

main();
