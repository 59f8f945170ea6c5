// Draws a run: a lane for each role that does something, time going down, an arrow for each talk, and a mark for each
// event and each new name; with `all`, a mark for every other step too.
'use strict';

const LANE = 156; // the width of a lane, and the other measures in pixels
const MARGIN = 40;
const LETTER = 7.25;
const LETTERS = 72; // of a line; more are cut off, and told where the pointer is
const HEIGHTS = { heading: 30, talk: 36, made: 62, mark: 22 };
const NAME = 19; // letters of a role's name in its box
const ROWS = 1000; // are drawn at most
const MARKED = new Set(['new', 'begin', 'end', 'endmany']);

function drawn(name, attributes, ...inside) {
  const element = document.createElementNS('http://www.w3.org/2000/svg', name);
  for (const [key, value] of Object.entries(attributes)) element.setAttribute(key, value);
  element.append(...inside);
  return element;
}

// A list in words: places 2, 10 and 11.
function placesOf(role) {
  const last = role.places[role.places.length - 1];
  const others = role.places.slice(0, -1).join(', ');
  return others ? `places ${others} and ${last}` : `place ${last}`;
}

// What a role is called: by the comment in front of its process, or by what is written there, or by its place. Of a
// comment too long for a box, the part in front of its first mark is taken.
function nameOf(role) {
  if (role.isOpponent) return 'opponent';
  if (role.label) return role.label.length > NAME ? role.label.split(/[.,:;]/)[0] : role.label;
  if (role.serves) return role.serves;
  return role.number === 0 ? 'process' : `place ${role.places[0]}`;
}

// What a step does, in words.
function saidOf(run, step) {
  const { does, places } = step;
  const event = step.event && run.events[step.event - 1];
  if (does === 'talk') return `${run.show(step.channel)}: ${run.show(step.datum)}`;
  if (does === 'new') return `new ${run.spelled(step.name)}`;
  if (does === 'par') return `part of place ${places[0]} goes to place ${step.made}`;
  if (!event) return `${does} ${run.show(step.message)}`;
  const paid = event.kind === 'begin' ? '' : event.isUnpaid ? ' unpaid' : ` from ${event.from}`;
  return `${step.event} ${event.kind} ${run.show(event.label)}${paid}`;
}

class Chart {
  constructor(run, all) {
    this.run = run;
    const rows = this.rowsOf(all);
    this.rows = rows.slice(0, ROWS);
    this.isCut = rows.length > ROWS;
    this.lanes = this.lanesOf();
    this.columns = Math.max(0, ...[...this.lanes.values()].map((lane) => lane.column + 1));
    this.height = this.place();
    this.width = Math.max(MARGIN + this.columns * LANE, ...this.rows.map((row) => this.endOf(row)));
  }

  // Up to where the text of a row goes.
  endOf(row) {
    const length = LETTER * Math.min(LETTERS, row.text.length) + 40;
    if (row.kind === 'heading') return MARGIN + length;
    const { from, by } = row.step;
    return length + (row.kind === 'mark' || from === by ? this.x(by) : Math.min(this.x(from), this.x(by)));
  }

  rowsOf(all) {
    const rows = [];
    let heading = '';
    this.run.steps.forEach((step, index) => {
      if (step.heading) heading = step.heading;
      const isTalk = step.does === 'talk';
      if (!isTalk && !MARKED.has(step.does) && !all) return;
      if (heading) rows.push({ kind: 'heading', text: heading });
      heading = '';
      rows.push({ kind: isTalk ? 'talk' : 'mark', step, number: index + 1, text: saidOf(this.run, step) });
    });
    return rows;
  }

  // The lane of each role that does something: the rows from which and up to which it goes, and its column. A column
  // is taken again by a role that is made after the one there has done its last.
  lanesOf() {
    const lanes = new Map();
    this.rows.forEach((row, index) => {
      for (const role of row.step ? [row.step.from, row.step.by] : []) {
        if (!role) continue;
        if (!lanes.has(role)) lanes.set(role, { first: role.server ? index : -1, made: role.server ? index : null });
        lanes.get(role).last = index;
      }
    });
    const columns = [];
    const inOrder = [...lanes].sort(([a, one], [b, two]) => b.isOpponent - a.isOpponent || one.first - two.first);
    for (const [role, lane] of inOrder) {
      const isFree = (column) => column.last < lane.first && !column.role.isOpponent;
      const alike = columns.findIndex((column) => isFree(column) && column.role.server === role.server);
      const free = alike >= 0 ? alike : columns.findIndex(isFree);
      lane.column = free >= 0 ? free : columns.length;
      columns[lane.column] = { role, last: lane.last };
      if (lane.made !== null) this.rows[lane.made].made = role;
    }
    return lanes;
  }

  // Gives each row its height and its place; returns the whole height.
  place() {
    let top = 50;
    for (const row of this.rows) {
      row.top = top;
      top += HEIGHTS[row.made ? 'made' : row.kind];
      row.line = top - (row.kind === 'talk' ? (row.made ? 22 : 10) : 11);
    }
    return top + 12;
  }

  x(role) {
    return MARGIN + this.lanes.get(role).column * LANE + LANE / 2;
  }

  text(x, y, words, kind) {
    const short = words.length > LETTERS ? `${words.slice(0, LETTERS - 1)}…` : words;
    return drawn('text', { x, y, class: kind }, short);
  }

  draw() {
    const { width, height } = this;
    const picture = drawn('svg', { width, height, viewBox: `0 0 ${width} ${height}`, role: 'img', class: 'chart' });
    const talks = this.rows.filter((row) => row.kind === 'talk').length;
    const told = `A chart of the run: ${this.lanes.size} roles, ${talks} messages, ${this.run.events.length} events.`;
    picture.setAttribute('aria-label', `${told} The steps in words are below it.`);
    for (const [role, lane] of this.lanes) picture.append(this.drawLane(role, lane));
    for (const row of this.rows) picture.append(this.drawRow(row));
    return picture;
  }

  drawLane(role, lane) {
    const x = this.x(role);
    const top = lane.made === null ? 4 : this.rows[lane.made].line - 18;
    const bottom = this.rows[lane.last].line + 10;
    const box = { x: x - LANE / 2 + 6, y: top, width: LANE - 12, height: 36, rx: 4 };
    const name = nameOf(role);
    const lines = [drawn('title', {}, `${name}, ${placesOf(role)}`)];
    [name, placesOf(role)].forEach((words, index) => {
      const short = words.length > NAME ? `${words.slice(0, NAME - 1)}…` : words;
      lines.push(drawn('text', { x, y: top + 15 + 14 * index, class: index ? 'where' : 'who' }, short));
    });
    const kind = role.isOpponent ? 'lane opponent' : 'lane';
    return drawn('g', { class: kind }, drawn('line', { x1: x, x2: x, y1: top + 36, y2: bottom }), drawn('rect', box), ...lines);
  }

  drawRow(row) {
    if (row.kind === 'heading') return this.text(MARGIN - 26, row.line + 2, row.text, 'heading');
    const group = drawn('g', { class: 'step', 'data-step': row.number });
    const number = drawn('text', { x: MARGIN - 8, y: row.line + 4, class: 'number' }, String(row.number));
    const parts = row.kind === 'talk' ? this.arrow(row) : this.mark(row);
    group.append(drawn('title', {}, `step ${row.number}: ${row.text}`), number, ...parts);
    return group;
  }

  arrow(row) {
    const { from, by } = row.step;
    const [start, end] = [this.x(from), this.x(by)];
    const y = row.line;
    const way = Math.sign(end - start);
    if (!way) {
      const loop = drawn('path', { d: `M${start} ${y - 8}h24v10h-18`, class: 'arrow' });
      return [loop, this.head(start + 4, y + 2, -1), this.text(start + 30, y, row.text, 'said')];
    }
    const tip = row.made ? end - way * (LANE / 2 - 6) : end;
    const line = drawn('line', { x1: start, x2: tip - way * 6, y1: y, y2: y, class: 'arrow' });
    const text = this.text(Math.min(start, tip) + 8, row.made ? y - 24 : y - 6, row.text, 'said');
    return [line, this.head(tip, y, way), text];
  }

  head(x, y, way) {
    return drawn('path', { d: `M${x} ${y}l${-9 * way} -4.5v9z`, class: 'head' });
  }

  mark(row) {
    const { by, does, event } = row.step;
    const x = this.x(by);
    const isUnpaid = event && this.run.events[event - 1].isUnpaid;
    const kind = isUnpaid ? 'unpaid' : MARKED.has(does) ? does : 'inner';
    return [this.sign(kind, x, row.line), this.text(x + 12, row.line + 4, row.text, `mark ${kind}`)];
  }

  // A begin is a disc, a paid end a square, an unpaid one a cross, and all else a small disc.
  sign(kind, x, y) {
    const named = { class: `sign ${kind}` };
    if (kind === 'unpaid') return drawn('path', { d: `M${x - 6} ${y - 6}l12 12m0 -12l-12 12`, ...named });
    const isEnd = kind === 'end' || kind === 'endmany';
    if (isEnd) return drawn('rect', { x: x - 5, y: y - 5, width: 10, height: 10, ...named });
    return drawn('circle', { cx: x, cy: y, r: kind === 'begin' ? 5.5 : 3, ...named });
  }
}
