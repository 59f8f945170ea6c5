// Runs the program: a new instance of the WebAssembly module for each run, in a worker, so that the page goes on.
'use strict';

// What the worker does; it has no names but its own. It is given the module once, and then runs.
function runner() {
  let module = null;

  function run(words, input) {
    const { exports: program } = new WebAssembly.Instance(module, {});
    const put = (bytes, address) => {
      if (!address) throw new RangeError('want of memory');
      new Uint8Array(program.memory.buffer, Number(address), bytes.length).set(bytes);
    };
    const spelled = new TextEncoder().encode(['cryptyc', ...words].map((word) => `${word}\0`).join(''));
    put(spelled, program.room_for_words(BigInt(spelled.length), BigInt(words.length + 1)));
    put(input, program.room_for_input(BigInt(input.length)));
    const status = program.start();
    const output = new Uint8Array(program.memory.buffer, Number(program.output()), Number(program.output_size()));
    return { status, output: new TextDecoder().decode(output) };
  }

  function outcome(words, input) {
    const began = performance.now();
    try {
      return { ...run(words, input), milliseconds: performance.now() - began };
    } catch (error) {
      return { failure: String(error), isStack: error instanceof RangeError && /call stack/.test(error.message) };
    }
  }

  function listen() {
    addEventListener('message', ({ data }) => {
      if (data.module) module = data.module;
      else postMessage(outcome(data.words, data.input));
    });
  }

  return { listen, outcome, use: (it) => (module = it) };
}

const WORKER = URL.createObjectURL(new Blob([`(${runner})().listen()`], { type: 'text/javascript' }));

// One run after another. What a run gives is { status, output, milliseconds } or { failure }.
class Machine {
  constructor(module) {
    this.module = module;
    this.limit = 20000; // milliseconds for a run
    this.waiting = [];
    this.running = null;
    this.start();
  }

  start() {
    this.worker = new Worker(WORKER);
    this.worker.addEventListener('message', ({ data }) => this.answer(data));
    this.worker.addEventListener('error', (event) => this.answer({ failure: event.message || 'the worker has failed' }));
    this.worker.postMessage({ module: this.module });
  }

  // Runs the program on words and on a text or bytes. Of runs for one purpose that wait, the last alone is made; the
  // others give null.
  run(words, input, purpose = null) {
    const bytes = typeof input === 'string' ? new TextEncoder().encode(input) : input;
    return new Promise((done) => {
      for (const it of this.waiting.filter((job) => purpose !== null && job.purpose === purpose)) it.done(null);
      this.waiting = this.waiting.filter((job) => purpose === null || job.purpose !== purpose);
      this.waiting.push({ words, bytes, purpose, done });
      this.next();
    });
  }

  next() {
    if (this.running || !this.waiting.length) return;
    this.running = this.waiting.shift();
    this.timer = setTimeout(() => this.giveUp(), this.limit);
    this.worker.postMessage({ words: this.running.words, input: this.running.bytes });
  }

  giveUp() {
    this.worker.terminate();
    this.start();
    this.answer({ failure: `no answer after ${this.limit / 1000} seconds, and so it was ended` });
  }

  answer(outcome) {
    clearTimeout(this.timer);
    if (!this.running) return;
    const { words, bytes, done } = this.running;
    this.running = null;
    done(outcome.isStack ? this.onThePage(words, bytes) : outcome);
    this.next();
  }

  // A file that is nested some hundred deep wants more stack than Chromium gives a worker, and less than it gives a page.
  onThePage(words, bytes) {
    const program = runner();
    program.use(this.module);
    return program.outcome(words, bytes);
  }
}

// The bytes of a text that is base64 of what gzip made.
async function unpacked(text) {
  const bytes = Uint8Array.from(atob(text), (it) => it.charCodeAt(0));
  return new Response(new Blob([bytes]).stream().pipeThrough(new DecompressionStream('gzip'))).arrayBuffer();
}
