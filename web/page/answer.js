// Shows what a command has answered: its text, what a reason says, what can be done with a listing, and a run as a chart.
'use strict';

const COMMANDS = [
  { name: 'check', says: 'whether the process is typed with the empty effect' },
  { name: 'derive', says: 'the typing derivation behind a yes' },
  { name: 'verify', says: 'whether the derivation in the file proves its process' },
  { name: 'replay', says: 'the file’s schedule, run step by step beside its opponent' },
  { name: 'play', says: 'a schedule, as players pick its steps' },
  { name: 'knows', says: 'whether an intruder knows a name at the end of that schedule, and how' },
  { name: 'narrate', says: 'the file that a narration tells, with the schedule of its run' },
  { name: 'bench', says: 'after each edit of named parts, whether they are typed together; it reads a bench, no file' },
  { name: 'print', says: 'the file in canonical text' },
  { name: 'upgrade', says: 'the file in version 2' },
  { name: 'load', says: 'the counts of so many sessions of the handshake; it reads no file' },
];
const SAYS_BENCH = 'Behind the number of each edit: whether the parts that are there after it are typed together.';
const SAYS_YES = {
  check: 'A yes says: beside every opponent, along every run, each end has an earlier begin of its own with the same label.',
  verify: 'A yes says: the derivation in the file proves its process, whoever made it.',
  derive: 'Behind the file, this is what verify judges. Most of its lines name the rule of typing for one form of the process.',
  play: 'Behind the file, this is a schedule for replay. It shows one way in which the process may run, and no more.',
  knows: 'Each line is a message that the intruder has: sent to it, or made or taken from those above. The last is the name.',
  narrate: 'One session, and its run as the narration tells it. Names that aren’t free have new spellings.',
  print: 'Two files of the same meaning have the same canonical text. Comments are not in it.',
  upgrade: 'The same file in version 2, in canonical text. Comments are not in it.',
  bench: `${SAYS_BENCH} A yes says of them together what a yes of check says of a file.`,
  load: 'Nodes of the file, rules of its derivation, and its verdict.',
};
const ANSWER = /^(no|refused): (\d+) (\w+)(?: at (\d+):(\d+))?(?:: ([^]*))?\n$/;

// Of an answer that is a no or a refusal: its kind, number, name, place and what is shown.
function faultOf(outcome) {
  const found = outcome && outcome.output && ANSWER.exec(outcome.output);
  if (!found) return null;
  const [, kind, number, name, line, column, shows] = found;
  return { kind, number: Number(number), name, line: Number(line), column: Number(column), shows };
}

function wordsOf(fault) {
  return `${fault.kind}: ${fault.number} ${fault.name}${fault.shows ? `: ${fault.shows}` : ''}`;
}

function button(words, done) {
  const it = element('button', { type: 'button' }, words);
  it.addEventListener('click', done);
  return it;
}

class Answer {
  constructor(root, page) {
    this.root = root;
    this.page = page; // it has reasons, editor, put(part, text, command), replace(text), choose(command, isAsked) and select(from, to)
    this.all = false;
  }

  show(...inside) {
    this.root.replaceChildren(...inside.flat().filter(Boolean));
  }

  head(command, outcome) {
    const told = outcome.failure ? '' : ` · status ${outcome.status} · ${outcome.milliseconds.toFixed(0)} ms`;
    return element('p', { className: 'aside' }, element('strong', {}, command), told);
  }

  output(outcome) {
    if (outcome.failure) return element('p', { className: 'bad' }, `There is no answer: ${outcome.failure}.`);
    if (!outcome.output) return element('p', {}, 'Nothing is written.');
    const kind = outcome.status === 0 ? 'yes' : outcome.status <= 2 ? 'no' : '';
    return element('pre', { className: `output ${kind}`, tabIndex: 0 }, outcome.output);
  }

  // What documents say of the number of a no or of a refusal.
  reason(outcome) {
    const fault = faultOf(outcome);
    const text = fault && this.page.reasons[fault.number];
    if (!text) return null;
    const section = element('section', { className: 'reason' }, element('h3', {}, `${fault.number} ${fault.name}`));
    section.insertAdjacentHTML('beforeend', text); // of the page's own documents
    return section;
  }

  plain(command, outcome) {
    const isNo = command === 'bench' && outcome.status === 1;
    const says = isNo ? `${SAYS_BENCH} A no says no reason; check says one, of the whole.` : outcome.status === 0 && SAYS_YES[command];
    const said = says ? element('p', { className: 'aside' }, says) : null;
    this.show(this.head(command, outcome), this.output(outcome), this.actions(command, outcome), said, this.reason(outcome));
  }

  // What can be done where a part of the file is missing.
  supplies(command, fault) {
    const { put, choose } = this.page;
    const it = {
      opponent: () => button('Put an idle opponent behind the file', () => put('opponent', 'opponent stop\n', command)),
      schedule: () => button('Let a schedule be played', () => choose('play')),
      derivation: () => button('Derive one', () => choose('derive')),
    }[fault.shows];
    return it ? element('p', { className: 'buttons' }, it()) : null;
  }

  actions(command, outcome) {
    const fault = faultOf(outcome);
    if (fault && fault.number === 38) return this.supplies(command, fault);
    const { put, replace, choose } = this.page;
    const { output } = outcome;
    const asFile = () => {
      choose('check', false);
      replace(new Bench(this.page.editor.text).whole());
    };
    if (command === 'bench' && outcome.status < 2) {
      return element('p', { className: 'buttons' }, button('Put the whole in its place as a file, and check', asFile));
    }
    if (outcome.status !== 0) return null;
    const shown = () => {
      choose('replay', false);
      replace(output);
    };
    const them = {
      derive: [button('Put it behind the file, and verify', () => put('derivation', output, 'verify'))],
      play: [button('Put it behind the file, and replay', () => put('schedule', output, 'replay'))],
      narrate: [button('Put it in place of the narration, and replay', shown)],
      print: [button('Put it in place of the file', () => replace(output))],
      upgrade: [button('Put it in place of the file', () => replace(output))],
    }[command];
    return them ? element('p', { className: 'buttons' }, ...them) : null;
  }

  // A replay, or a play: `text` is the file with its schedule, `outcome` the command's, `replayed` that of replay on the
  // first `count` steps.
  run(command, outcome, text, replayed, count) {
    const parts = [this.head(command, outcome), this.output(outcome), this.actions(command, outcome)];
    let run = null;
    try {
      run = new Run(text).take(count);
      if (!run.isAsWritten(replayed.output)) throw new Error('the events are others');
    } catch (error) {
      const why = `The run can’t be drawn: what the page makes of it isn’t what the program says (${error.message}).`;
      this.show(parts, element('p', { className: 'bad' }, why), this.reason(outcome));
      return null;
    }
    if (command === 'replay' && outcome.status === 2) parts.push(element('p', {}, `The ${count} steps before it are fine:`));
    const verdict = command === 'replay' ? this.verdict(run, outcome) : null;
    this.show(parts, this.reason(outcome), verdict, this.chart(run), this.steps(run), this.places(run));
    return run;
  }

  verdict(run, outcome) {
    if (outcome.status === 2) return null;
    const words = outcome.status === 0
      ? 'Paid: along these steps each end has its begin. Of other steps and other opponents this says nothing.'
      : 'Unpaid: this is an attack. No proof of this file can exist.';
    return element('p', { className: outcome.status === 0 ? 'aside' : 'bad' }, words);
  }

  chart(run) {
    const scroll = element('div', { className: 'scroll', tabIndex: 0 });
    const box = element('input', { type: 'checkbox', checked: this.all });
    const draw = () => {
      this.all = box.checked;
      const chart = new Chart(run, this.all);
      const { steps } = run;
      scroll.replaceChildren(chart.rows.length ? chart.draw() : 'No step sends anything, and there is no event.');
      if (chart.isCut) scroll.append(`Only the first ${ROWS} lines are drawn.`);
      for (const step of scroll.querySelectorAll('.step')) {
        const { at, end } = steps[step.dataset.step - 1];
        step.addEventListener('click', () => this.page.select(at, end));
      }
    };
    box.addEventListener('change', draw);
    draw();
    return [element('p', {}, element('label', {}, box, ' every step')), scroll];
  }

  steps(run) {
    const list = element('ol', { className: 'said' });
    run.steps.slice(0, ROWS).forEach((step, index) => {
      if (step.heading) list.append(element('li', { className: 'heading' }, step.heading));
      const who = step.does === 'talk' ? `${nameOf(step.from)} to ${nameOf(step.by)}` : nameOf(step.by);
      const spelled = `${step.kind} ${step.places.join(' ')}`;
      list.append(element('li', { value: index + 1 }, `${spelled} · ${who} · ${saidOf(run, step)}`));
    });
    const first = run.steps.length > ROWS ? `first ${ROWS} of ` : '';
    const summary = element('summary', {}, `The ${first}${run.steps.length} steps in words`);
    return run.steps.length ? element('details', {}, summary, list) : null;
  }

  // What is left at each place where something is left.
  places(run) {
    const rows = run.places.map(({ node, role }, place) => [place, role, node]).filter(([, , node]) => node.form !== 'stop');
    const heads = ['place', 'who', 'what comes next there'].map((it) => element('th', {}, it));
    const table = element('table', {}, element('tr', {}, ...heads));
    for (const [place, role, node] of rows.slice(0, ROWS)) {
      const code = node.form === 'par' && !node.isSequel ? '.. | ..' : run.text.slice(node.from, node.to);
      const cells = [String(place), nameOf(role), element('code', {}, code)];
      table.append(element('tr', {}, ...cells.map((it) => element('td', {}, it))));
    }
    return element('details', {}, element('summary', {}, `The places after the last step: ${rows.length} wait for more`), table);
  }
}
