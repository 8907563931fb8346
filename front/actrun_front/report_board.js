// The page of `actrun report`. All states are lines that `actrun replay` printed; these scripts look up the lines of a place and draw
// them. This part has the elements, the tree, and the lines of each place.

const data = JSON.parse(document.getElementById('data').textContent);
const FIRST = data.first, LAST = data.last, HEIGHT = 28;
const $ = (id) => document.getElementById(id);
const ICONS = {
  success: 'M8 1a7 7 0 1 1 0 14A7 7 0 0 1 8 1Zm3.3 4.4L7 9.7 4.8 7.5 3.7 8.6 7 11.9l5.4-5.4-1.1-1.1Z',
  failure: 'M8 1a7 7 0 1 1 0 14A7 7 0 0 1 8 1ZM5.6 4.5 4.5 5.6 6.9 8l-2.4 2.4 1.1 1.1L8 9.1l2.4 2.4 1.1-1.1L9.1 8l2.4-2.4-1.1-1.1L8 6.9 5.6 4.5Z',
  passed: 'M8 1a7 7 0 1 1 0 14A7 7 0 0 1 8 1ZM7.1 4v5.2h1.8V4H7.1Zm0 6.4v1.8h1.8v-1.8H7.1Z',
  cancelled: 'M8 1a7 7 0 1 1 0 14A7 7 0 0 1 8 1Zm0 1.6a5.4 5.4 0 0 0-4.3 8.6l7.5-7.5A5.4 5.4 0 0 0 8 2.6Zm4.3 2.2-7.5 7.5a5.4 5.4 0 0 0 7.5-7.5Z',
  skipped: 'M8 1a7 7 0 1 1 0 14A7 7 0 0 1 8 1Zm0 1.6a5.4 5.4 0 1 0 0 10.8A5.4 5.4 0 0 0 8 2.6ZM4.8 7.2h6.4v1.6H4.8V7.2Z',
  running: 'M8 1a7 7 0 1 1 0 14A7 7 0 0 1 8 1Zm0 1.6a5.4 5.4 0 1 0 0 10.8A5.4 5.4 0 0 0 8 2.6ZM6.3 4.9 11.5 8l-5.2 3.1V4.9Z',
  waiting: 'M8 1a7 7 0 1 1 0 14A7 7 0 0 1 8 1Zm0 1.6a5.4 5.4 0 1 0 0 10.8A5.4 5.4 0 0 0 8 2.6ZM7.2 4.5h1.6v3.1l2.3 1.3-.8 1.4-3.1-1.8v-4Z',
  fresh: 'M8 2a6 6 0 1 1 0 12A6 6 0 0 1 8 2Zm0 1.2a4.8 4.8 0 1 0 0 9.6 4.8 4.8 0 0 0 0-9.6Z',
};
const MARKS = /[\u061c\u200e\u200f\u202a-\u202e\u2066-\u2069]/;
const CONTROL = /[\u0000-\u0008\u000b-\u001f\u007f]/g;

// Elements and texts: a text becomes text nodes alone; each bidi mark is isolated, so that it turns nothing round it.

function make(tag, kind = '', words = '') {
  const found = document.createElement(tag);
  if (kind) found.className = kind;
  return add(found, words);
}

function put(target, words) {
  target.textContent = '';
  return add(target, words);
}

function add(target, text) {
  const shown = String(text).replace(CONTROL, (it) => String.fromCharCode(it === '\x7f' ? 0x2421 : 0x2400 + it.charCodeAt(0)));
  for (const piece of MARKS.test(shown) ? shown.split(new RegExp(`(${MARKS.source})`)) : [shown]) {
    if (MARKS.test(piece)) {
      const sign = document.createElement('bdi');
      sign.className = 'sign';
      sign.dataset.mark = 'U+' + piece.charCodeAt(0).toString(16).toUpperCase().padStart(4, '0');
      sign.textContent = piece;
      target.append(sign);
    } else if (piece) {
      target.append(piece);
    }
  }
  return target;
}

function mark(element, attributes) {
  for (const [name, value] of Object.entries(attributes)) element.setAttribute(name, value);
  return element;
}

function icon(state) {
  const [svg, path] = ['svg', 'path'].map((tag) => document.createElementNS('http://www.w3.org/2000/svg', tag));
  mark(svg, {viewBox: '0 0 16 16', class: `icon s-${state}`, 'aria-hidden': 'true'});
  svg.append(mark(path, {d: ICONS[state] || ICONS.fresh, 'fill-rule': 'evenodd'}));
  return svg;
}

function link(text, action) {
  const found = make('button', 'link', text);
  found.type = 'button';
  found.addEventListener('click', action);
  return found;
}

// The tree, and of each block of the board its heads and lines with their places.

let count = 0;
const runs = [], jobs = [], legs = [], all = [];

function node(kind, number, name, parent) {
  const made = {kind, number, name, parent, level: parent ? parent.level + 1 : 1, children: [], open: false, id: count++, block: -1};
  (parent ? parent.children : runs).push(made);
  all.push(made);
  return made;
}

for (const [name, inner] of data.runs) {
  const run = node('run', runs.length, name, null);
  for (const [jobName, legNames, steps] of inner) {
    const job = node('job', jobs.length, jobName, run);
    jobs.push(job);
    for (const [legName, values] of legNames) {
      const leg = Object.assign(node('leg', legs.length, legName, job), {values});
      if (values.length && legName.startsWith(`${jobName}, `)) leg.label = legName.slice(jobName.length + 2); // (the row above has the job's name)
      legs.push(leg);
      steps.forEach(([stepName, condition, script], at) => Object.assign(node('step', at, stepName, leg), {condition, script}));
    }
  }
}
const blocks = [...runs, ...jobs, ...legs, {kind: 'ends'}];
blocks.forEach((one, at) => {
  const [head, ...lines] = data.base[at];
  Object.assign(one, {block: at, places: [FIRST], heads: [head], lines: [lines]});
});
data.steps.forEach((changes, at) => {
  for (const [block, head, keep, ...lines] of changes) {
    const one = blocks[block], last = one.places.length - 1, old = one.lines[last];
    one.places.push(FIRST + 1 + at);
    one.heads.push(head < 0 ? one.heads[last] : head);
    one.lines.push(lines.length || keep !== old.length ? [...old.slice(0, keep), ...lines] : old);
  }
});
const text = (number) => data.texts[number];

// how many places, in order, are at most K
function upTo(places, place) {
  let low = 0, high = places.length;
  while (low < high) {
    const middle = (low + high) >> 1;
    if (places[middle] <= place) low = middle + 1; else high = middle;
  }
  return low;
}

const indexAt = (one, place) => upTo(one.places, place) - 1;
const headAt = (one, place) => text(one.heads[indexAt(one, place)]);
const linesAt = (one, place) => one.lines[indexAt(one, place)].map(text);

// the lines of a block at a place, as `show` prints them
function blockText(one, place) {
  if (one.kind === 'ends') return ['ends', ...linesAt(one, place)].join(' ');
  return [`${one.kind} ${one.number} ${headAt(one, place)}`, ...linesAt(one, place)].join('\n');
}

function boardText(place) {
  const found = runs.flatMap((run) => [run, ...run.children.flatMap((job) => [job, ...job.children])]);
  return [...found, blocks[blocks.length - 1]].map((one) => blockText(one, place)).join('\n') + '\n';
}

// the done steps of a leg in one of its states: outcome, conclusion, outputs, variables; and the leg's own outputs
const parsed = new Map();
function doneOf(lines) {
  let found = parsed.get(lines);
  if (!found) {
    found = {steps: [], out: null};
    for (const line of lines.map(text)) {
      const words = line.split(' ');
      if (words[0] === 'step') found.steps.push({line, outcome: words[2], conclusion: words[3], outputs: JSON.parse(words.slice(4).join(' ')), set: {}});
      else if (words[0] === 'set') found.steps[found.steps.length - 1].set = JSON.parse(line.slice(4));
      else found.out = JSON.parse(line.slice(4));
    }
    if (parsed.size > 5000) parsed.clear();
    parsed.set(lines, found);
  }
  return found;
}

const doneAt = (leg, place) => doneOf(leg.lines[indexAt(leg, place)]);
const isStepLine = data.texts.map((it) => it.startsWith('step '));
const stepCount = (lines) => lines.reduce((sum, one) => sum + isStepLine[one], 0);

// where each step of a leg began its call and was done, as far as the page has these places
function spans(leg) {
  if (leg.spans) return leg.spans;
  leg.spans = leg.children.map(() => ({begin: null, done: null}));
  let before = stepCount(leg.lines[0]);
  leg.spans.slice(0, before).forEach((it) => { it.done = FIRST; });
  leg.places.forEach((place, at) => {
    const done = stepCount(leg.lines[at]);
    for (; before < done; before++) leg.spans[before].done = place;
    if (/^running \d+ call/.test(text(leg.heads[at])) && leg.spans[done]) leg.spans[done].begin = place;
  });
  return leg.spans;
}

// what a thing's line says at a place, and the state that its icon shows
function stand(one, place) {
  if (one.kind === 'step') {
    const done = doneAt(one.parent, place).steps, head = headAt(one.parent, place);
    if (one.number < done.length) {
      const {outcome, conclusion} = done[one.number];
      const state = outcome === 'failure' && conclusion === 'success' ? 'passed' : outcome;
      return {says: outcome === conclusion ? outcome : `${outcome}, counts as ${conclusion}`, state};
    }
    const called = one.number === done.length && /^running \d+ call/.test(head);
    return {says: called ? 'in its call' : '', state: called ? 'running' : 'fresh'};
  }
  const says = headAt(one, place), words = says.split(' ');
  if (words[0] === 'open') {
    const result = data.jobs[one.number];
    return result && result[1] <= place ? {says, more: result[0], state: result[0]} : {says, state: 'running'};
  }
  const states = {going: 'running', running: 'running', waiting: 'waiting', admitted: 'waiting'};
  const ended = {closed: 1, shut: 1, ended: 1}[words[0]];
  return {says, state: ended ? (words[2] === 'tolerated' ? 'passed' : words[1]) : states[words[0]] || 'fresh'};
}

// the places of a thing and of all that is in it
function placesOf(one) {
  if (one.own) return one.own;
  if (one.kind === 'leg') return (one.own = one.places.slice(1));
  if (one.kind === 'step') return (one.own = Object.values(spans(one.parent)[one.number]).filter((place) => place !== null && place > FIRST));
  const seen = new Uint8Array(LAST - FIRST + 1), found = [];
  const take = (it) => {
    for (let at = 1; at < it.places.length; at++) seen[it.places[at] - FIRST] = 1;
    if (it.kind !== 'leg') it.children.forEach(take);
  };
  take(one);
  seen.forEach((yes, at) => { if (yes) found.push(FIRST + at); });
  return (one.own = found);
}

// What a person looks for, in this order: where a part failed, was cancelled, displaced or skipped, unless something in it was so before.

const RANKS = ['failure', 'cancelled', 'displaced', 'skipped'];
const troubles = [];
(() => {
  const seen = new Map(RANKS.map((rank) => [rank, new Set()]));
  const note = (rank, place, one) => {
    troubles.push({rank, place, one});
    for (let it = one; it; it = it.parent) seen.get(rank === 'displaced' ? 'cancelled' : rank).add(it);
  };
  const words = data.texts.map((it) => it.split(' ', 3)), known = new Set(RANKS);
  data.steps.forEach((changes, at) => {
    const place = FIRST + 1 + at;
    for (const [block, , , ...lines] of changes) {
      for (const [kind, number, outcome] of lines.map((line) => words[line])) {
        if (kind === 'step' && known.has(outcome)) note(outcome, place, blocks[block].children[Number(number)]);
      }
    }
    for (const [block, head] of [...changes].reverse()) {
      const one = blocks[block], [state, result] = head >= 0 ? words[head] : [];
      if (!['ended', 'shut', 'closed'].includes(state) || !known.has(result) || !one.name) continue;
      if (data.displaced[`${one.kind} ${one.number}`] === place) note('displaced', place, one);
      else if (!seen.get(result).has(one)) note(result, place, one);
    }
  });
  troubles.sort((one, other) => RANKS.indexOf(one.rank) - RANKS.indexOf(other.rank) || one.place - other.place);
})();

// Times: where a part began its work and was done with it, null where the page has no such place, and how long that took.

function workOf(one) {
  if (one.work) return one.work;
  if (one.kind === 'step') return (one.work = spans(one.parent)[one.number]);
  const words = one.heads.map((head) => text(head).split(' ')[0]), at = (states) => words.findIndex((it) => states.includes(it));
  const begun = at(['going', 'open', 'running']), over = at(['closed', 'ended']), result = one.kind === 'job' && data.jobs[one.number];
  const done = result ? result[1] : over < 0 ? null : one.places[over];
  return (one.work = {begin: begun < 0 || (one.places[begun] === FIRST && FIRST > 0) ? null : one.places[begun], done});
}

// milliseconds as a person writes them
function spelled(time) {
  if (time < 1000) return `${time} ms`;
  const seconds = String(Number((time % 60000 / 1000).toFixed(time < 60000 ? 2 : 1)));
  return [[Math.floor(time / 3600000), 'h'], [Math.floor(time % 3600000 / 60000), 'min'], [seconds, 's']].filter(([count]) => Number(count))
    .map(([count, unit]) => `${count} ${unit}`).join(' ');
}

const between = (from, to) => times ? spelled(times[Math.min(to, LAST) - FIRST] - times[from - FIRST]) : '';

// how long a part has worked at a place
function tookAt(one, place) {
  const {begin, done} = workOf(one);
  return !times || begin === null || begin > place ? '' : between(begin, done !== null && done <= place ? done : place);
}

const BAD = new Set(['failure', 'passed', 'cancelled', 'skipped']);
for (const one of [...all].reverse()) {
  const {state} = stand(one, LAST);
  one.bad = BAD.has(state) || (one.kind !== 'step' && state !== 'success') || (one.kind === 'step' && state === 'running');
  one.some = one.bad || one.children.some((it) => it.some);
}

// What is shown.

let place = LAST, chosen = null, rows = [], playing = 0, query = '', only = false, view = [0, 1], byClock = false, tree = 400, laneWidth = 600;
let follow = true;
const times = data.times && data.times.entries;

const titleOf = (one) => `${one.kind} ${one.number} (${one.name})`;

// the part that the entry of a place is about
function aboutAt(at) {
  const [event, number, , ...more] = data.entries[at - FIRST];
  if (event === 'nothing') return null;
  const one = (['open', 'close', 'cancel'].includes(event) ? runs : event === 'judge' ? jobs : legs)[number];
  return more.length ? one.children[more[0]] : one;
}

function happened(at) {
  const [event, , worker, ...more] = data.entries[at - FIRST], one = aboutAt(at);
  if (!one) return 'before the first entry';
  if (!more.length) return `${event} ${titleOf(one)}${one.kind === 'leg' ? `, worker ${worker}` : ''}`;
  return `${event} of ${titleOf(one)}${more[1] ? ', ' + more[1] : ''}, ${titleOf(one.parent)}, worker ${worker}`;
}

function clockText(at) {
  if (!times) return '';
  const wall = new Date(data.times.start + times[at - FIRST]);
  return `${(times[at - FIRST] / 1000).toFixed(1)} s, ${wall.toLocaleTimeString()}`;
}

// from 0 to 1, where the column of a place begins in the whole timeline; places after the last one are its end
function share(at) {
  if (!byClock) return (at - FIRST) / (LAST - FIRST + 1);
  const start = times[0], end = times[LAST - FIRST] * 1.01 + 1;
  return at > LAST ? 1 : (times[at - FIRST] - start) / (end - start);
}

const x = (at) => (share(at) - view[0]) / (view[1] - view[0]) * laneWidth;

function placeAt(pixels) {
  const wanted = view[0] + pixels / laneWidth * (view[1] - view[0]);
  let low = FIRST, high = LAST;
  while (low < high) {
    const middle = (low + high + 1) >> 1;
    if (share(middle) <= wanted) low = middle; else high = middle - 1;
  }
  return low;
}

