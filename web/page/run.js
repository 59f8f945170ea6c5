// Takes the steps of a schedule one by one, as docs/reduction.md has them, and notes who does what. The program says
// whether a schedule runs through and what its events are; what is noted here is held to that before it's shown.
'use strict';

function isSame(one, other) {
  if (one === other) return true;
  if (one.kind !== other.kind) return false;
  if (one.kind === 'name') return one.number === other.number;
  if (one.kind === 'unit') return true;
  if (one.kind === 'pair') return isSame(one.left, other.left) && isSame(one.right, other.right);
  return isSame(one.part, other.part) && (one.kind !== 'sealed' || isSame(one.key, other.key));
}

// The text of a message, where `spell` gives that of a name by its number.
function shown(message, spell) {
  switch (message.kind) {
    case 'name': return spell(message.number);
    case 'unit': return '()';
    case 'pair': return `(${shown(message.left, spell)}, ${shown(message.right, spell)})`;
    case 'sealed': return `{${shown(message.part, spell)}}${shown(message.key, spell)}`;
    case 'hash': return `hash(${shown(message.part, spell)})`;
    default: return `${message.kind} ${shown(message.part, spell)}`;
  }
}

// The names in scope are a list, the last one first: { word, value, before }.
function bind(scope, word, value) {
  return { word, value, before: scope };
}

function valueOf(message, scope) {
  if (message.kind === 'name') {
    while (scope && scope.word !== message.word) scope = scope.before;
    if (!scope) throw new Error(`no name ${message.word}`);
    return scope.value;
  }
  const value = { kind: message.kind };
  for (const part of ['left', 'right', 'part', 'key']) if (message[part]) value[part] = valueOf(message[part], scope);
  return value;
}

// A run. Each place is { node, scope, role }. A role is one lane of the chart: { number, label, isOpponent, places },
// and of a copy of a `repeat inp` also `server`, the role of that, and `serves`, how it's spelled.
class Run {
  constructor(text) {
    const file = new Reader(text).file();
    this.text = text;
    this.schedule = file.steps || [];
    this.words = file.free.slice();
    this.freeNames = file.free.length;
    this.steps = [];
    this.events = [];
    this.places = [];
    this.roles = [];
    let scope = null;
    file.free.forEach((word, number) => (scope = bind(scope, word, { kind: 'name', number })));
    this.add(file.process, scope, this.role(file.process.comment, false));
    this.add(file.opponent, scope, this.role(null, true));
  }

  role(label, isOpponent) {
    const role = { number: this.roles.length, label, isOpponent, places: [] };
    this.roles.push(role);
    return role;
  }

  add(node, scope, role) {
    role.places.push(this.places.length);
    this.places.push({ node, scope, role });
    return this.places.length - 1;
  }

  // A name as the events show it, and as the chart does: with the spelling of its `new` in front.
  plain(number) {
    return number < this.freeNames ? this.words[number] : `#${number}`;
  }

  spelled(number) {
    return number < this.freeNames ? this.words[number] : `${this.words[number]}#${number}`;
  }

  show(message) {
    return shown(message, (number) => this.spelled(number));
  }

  // Takes the first steps of the schedule, all where no number is given.
  take(count = this.schedule.length) {
    for (const step of this.schedule.slice(0, count)) {
      const [at, other] = step.places.map((place) => this.places[place]);
      const done = step.kind === 'talk' ? this.talk(at, other) : this.act(at);
      this.steps.push({ ...step, ...done });
    }
    return this;
  }

  talk(from, to) {
    const channel = valueOf(from.node.channel, from.scope);
    const datum = valueOf(from.node.datum, from.scope);
    const isInput = from.node.form === 'out' && ['inp', 'repeat'].includes(to.node.form);
    if (!isInput || !isSame(channel, valueOf(to.node.channel, to.scope))) throw new Error('no talk');
    const done = { does: 'talk', from: from.role, by: to.role, channel, datum, node: from.node };
    const scope = bind(to.scope, to.node.name, datum);
    from.node = STOP;
    if (to.node.form === 'inp') {
      Object.assign(to, { node: to.node.next, scope });
      return done;
    }
    const copy = this.role(to.role.label, to.role.isOpponent);
    Object.assign(copy, { server: to.role, serves: this.text.slice(to.node.from, to.node.channelEnd) });
    this.add(to.node.next, scope, copy);
    return { ...done, by: copy, made: this.places.length - 1 };
  }

  act(place) {
    const { node, scope, role } = place;
    const go = (next, inner = scope) => Object.assign(place, { node: next, scope: inner });
    const value = (message) => valueOf(message, scope);
    const done = { does: node.form, by: role, node };
    if (!ACTS[node.form]) throw new Error('no act');
    return { ...done, ...ACTS[node.form](this, { place, node, scope, go, value }) };
  }

  event(kind, label) {
    this.events.push({ kind, label, text: `${kind} ${shown(label, (number) => this.plain(number))}` });
    return { event: this.events.length, label };
  }

  // Whether the events are those that the program has written, line by line. Then each gets what the program says of
  // who pays for it: the rest of its line.
  isAsWritten(output) {
    const lines = output.split('\n').slice(0, -2);
    if (lines.length !== this.events.length) return false;
    return this.events.every((event, index) => {
      const start = `${index + 1} ${event.text}`;
      const rest = lines[index].slice(start.length);
      const found = /^(?: from (\d+)| (unpaid))?$/.exec(rest);
      if (!lines[index].startsWith(start) || !found) return false;
      event.from = found[1] ? Number(found[1]) : null;
      event.isUnpaid = Boolean(found[2]);
      return true;
    });
  }
}

const STOP = { form: 'stop' };

function must(holds) {
  if (!holds) throw new Error('no act');
}

// What each form does that acts alone.
const ACTS = {
  split(run, { node, scope, go, value }) {
    const message = value(node.message);
    must(message.kind === 'pair');
    const [one, two] = node.names;
    go(node.next, bind(bind(scope, one, message.left), two, message.right));
    return { message };
  },
  match(run, { node, scope, go, value }) {
    const message = value(node.message);
    must(message.kind === 'pair' && isSame(message.left, value(node.first)));
    go(node.next, bind(scope, node.name, message.right));
    return { message };
  },
  case(run, { node, scope, go, value }) {
    const message = value(node.message);
    must(message.kind === 'inl' || message.kind === 'inr');
    const side = node.sides[message.kind === 'inl' ? 0 : 1];
    go(side.next, bind(scope, side.name, message.part));
    return { message };
  },
  decrypt(run, { node, scope, go, value }) {
    const message = value(node.message);
    must(message.kind === 'sealed' && isSame(message.key, value(node.key)));
    go(node.next, bind(scope, node.name, message.part));
    return { message };
  },
  check(run, { node, go, value }) {
    const message = value(node.message);
    must(isSame(message, value(node.own)));
    go(node.next);
    return { message };
  },
  begin(run, { node, go, value }) {
    go(node.next);
    return run.event('begin', value(node.label));
  },
  end(run, { node, go, value }) {
    go(node.next);
    return run.event('end', value(node.label));
  },
  endmany(run, { node, go, value }) {
    go(node.next);
    return run.event('endmany', value(node.label));
  },
  cast(run, { node, scope, go, value }) {
    const message = value(node.message);
    go(node.next, bind(scope, node.name, message));
    return { message };
  },
  new(run, { node, scope, go }) {
    const number = run.words.push(node.name) - 1;
    go(node.next, bind(scope, node.name, { kind: 'name', number }));
    return { name: number };
  },
  // The right side goes to the next new place. What follows an output is of the same role; another side is one of its own.
  par(run, { place, node, scope, go }) {
    const { role } = place;
    go(node.left);
    if (!node.isSequel && !role.isOpponent && node.left.comment && !role.label) role.label = node.left.comment;
    const right = node.isSequel ? role : run.role(node.right.comment || null, role.isOpponent);
    return { made: run.add(node.right, scope, right), right };
  },
};
