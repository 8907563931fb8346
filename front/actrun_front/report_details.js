// The details of the chosen thing.

function section([title, more], inner) {
  const head = make('h3', '', title);
  if (more) head.append(' ', make('small', '', more));
  $('details').append(head, inner);
}

const placeLink = (at, words = `place ${at}`) => link(words, () => go(at));

function table(pairs) {
  const found = make('table');
  for (const [name, value, ...origin] of pairs) {
    const row = make('tr'), head = mark(make('th'), {scope: 'row'}), cell = make('td');
    head.append(make('bdi', '', name));
    cell.append(make('bdi', '', value), ...origin);
    row.append(head, cell);
    found.append(row);
  }
  return found;
}

// The lines that `why` prints of a part, with their depths: below each part, before the others, are those that made it so, unless
// this text has them already.
function whyLines(key) {
  const found = [], left = [[key, 0]], seen = new Set();
  while (left.length && found.length < 500) {
    const [words, depth] = left.pop(), [name, said, because] = data.why[words];
    const above = seen.has(words);
    const told = words.startsWith('stop ') ? ' was told to stop (above)' : ' (above)';
    found.push({words, depth, name, said: above ? told : said});
    seen.add(words);
    if (!above) left.push(...because.filter((it) => data.why[it]).map((it) => [it, depth + 1]).reverse());
  }
  return found;
}

// the row of a part that `why` is asked about by these words
function whyRow(words) {
  const [kind, ...numbers] = words.replace('stop ', '').split(' ');
  if (kind === 'step') return legs[numbers[0]] && legs[numbers[0]].children[numbers[1]];
  return {run: runs, job: jobs, leg: legs}[kind][numbers[0]];
}

// the lines of `why`: names lead to their rows, lines of the record to their places
function whyText(lines) {
  const found = mark(make('pre'), {id: 'why'});
  lines.forEach(({words, depth, name, said}, at) => {
    if (at) found.append('\n');
    const row = make('bdi'), one = whyRow(words), called = name.split(' ', 2).join(' ');
    found.append(row);
    row.append('  '.repeat(depth), link(called, () => choose(one, true)));
    add(row, name.slice(called.length));
    for (const piece of said.split(/\b(line \d+)\b/)) {
      const target = /^line (\d+)$/.exec(piece), to = target && Number(target[1]) - 1;
      if (target && to >= FIRST && to <= LAST) row.append(placeLink(to, piece)); else add(row, piece);
    }
  });
  return found;
}

function drawDetails() {
  const box = $('details'), one = chosen, kept = box.shows === one ? box.scrollTop : 0, wasOpen = $('boardbox') && $('boardbox').open;
  const focused = box.contains(document.activeElement);
  keepScroll();
  box.textContent = '';
  box.shows = one;
  const {says, state, more} = stand(one, place);
  const head = make('h2'), since = sinceOf(one);
  head.append(icon(state), make('bdi', '', one.name));
  box.append(head);
  const line = make('p');
  line.append(make('span', 'kind', `${one.kind} ${one.number}${one.kind === 'step' ? ` of leg ${one.parent.number}` : ''}`), ' \u2003');
  line.append(make('strong', `s-${state}`, (says || 'not begun') + (more ? ` \u00b7 ${more}` : '')));
  if (since !== null && since > FIRST) line.append(' since ', placeLink(since));
  if (tookAt(one, place)) line.append(make('span', 'muted', ` \u00b7 ${tookAt(one, place)}`));
  box.append(line);
  drawWhy(one);
  if (one.kind === 'step') drawStep(one);
  if (one.kind === 'leg') drawLeg(one);
  drawHistory(one);
  const rest = mark(make('details'), {id: 'boardbox'});
  rest.append(make('summary', '', `Board at place ${place}`));
  const fill = () => { if (rest.open && rest.children.length < 2) rest.append(boardPre(one)); };
  rest.addEventListener('toggle', fill);
  rest.open = Boolean(wasOpen);
  fill();
  box.append(rest);
  box.scrollTop = kept;
  showScroll(one);
  if (focused) box.focus({preventScroll: true});
}

function boardPre(one) {
  const size = blocks.reduce((sum, it) => sum + 1 + (it.lines ? it.lines[indexAt(it, place)].length : 0), 0);
  let words = '';
  if (size <= 3000) words = boardText(place);
  else for (let it = one.kind === 'step' ? one.parent : one; it; it = it.parent) words = `${blockText(it, place)}\n${words}`;
  return mark(make('pre', '', words), {id: 'board'});
}

// the place since which a thing is as it is; null where it is as it was before the window
function sinceOf(one) {
  if (one.kind !== 'step') {
    let at = indexAt(one, place);
    while (at > 0 && one.heads[at - 1] === one.heads[at]) at--;
    return one.places[at];
  }
  const {begin, done} = spans(one.parent)[one.number];
  return done !== null && done <= place ? done : begin !== null && begin <= place ? begin : null;
}

function drawWhy(one) {
  const words = one.kind === 'step' ? `step ${one.parent.number} ${one.number}` : `${one.kind} ${one.number}`;
  const when = place < data.total ? `as it is at the end, place ${data.total}` : '';
  if (data.why[words] !== undefined) {
    section(['Why', when], whyText(whyLines(words)));
  } else if (stand(one, LAST).state !== 'success') {
    const line = make('p', 'ask', 'Ask: ');
    line.append(make('code', '', `actrun why ${data.record} ${words}`));
    section(['Why', when], line);
  }
  if (data.values[words] !== undefined) section(['Values', 'that decided it'], mark(make('pre', '', data.values[words]), {id: 'values'}));
}

function drawStep(one) {
  drawLog(one);
  drawFiles(one);
  const steps = doneAt(one.parent, place).steps, own = steps[one.number];
  if (own && Object.keys(own.outputs).length) section(['Outputs'], table(Object.entries(own.outputs)));
  if (own && Object.keys(own.set).length) section(['Variables', 'it set for later steps'], table(Object.entries(own.set)));
  const before = variables(one.parent, Math.min(one.number, steps.length));
  if (before.length) section(['Variables', 'earlier steps set'], table(before));
  if (one.condition) section(['Condition'], make('pre', '', one.condition));
  if (one.script) section(['What it executes'], make('pre', '', one.script));
}

// The log of a step: at its first error, else at its end, or where it was left.

const scrolled = new Map();
const logOf = (one) => data.logs && one.kind === 'step' ? data.logs[`${one.parent.number}-${one.number}`] : undefined;

function drawLog(one) {
  const {done} = spans(one.parent)[one.number], log = logOf(one);
  if (log === undefined) return;
  if (done === null || done <= place) {
    section(['Log', done === null ? 'up to the end of the record, secrets masked' : 'secrets masked'], logBox(log));
  } else {
    const note = make('p', 'muted', 'It is written at ');
    note.append(placeLink(done));
    section(['Log'], note);
  }
}

// what a step changed in its workspace, once it has ended
function drawFiles(one) {
  const {done} = spans(one.parent)[one.number], files = (data.files || {})[`${one.parent.number}-${one.number}`] || [];
  if (!files.length || done === null || done > place) return;
  const words = files.map(([kind, path]) => `${kind} ${path}`).join('\n');
  section(['Files', 'that it added (A), changed (M) and deleted (D)'], mark(make('pre', '', words), {id: 'files', tabindex: 0}));
}

// the lines that `::error::` and its like made, and those that begin like them, have marks; so has what is searched for
function logBox(log) {
  const box = mark(make('pre'), {id: 'log', tabindex: 0, role: 'region', 'aria-label': 'Log'});
  let plain = '';
  const flush = () => { add(box, plain); plain = ''; };
  for (const line of (log || '(empty)').split(/(?<=\n)/)) {
    const kind = /^(error|warning|notice): /.exec(line), isHit = query && line.toLowerCase().includes(query);
    if (!kind && !isHit) { plain += line; continue; }
    flush();
    const row = make('span', kind ? `said ${kind[1]}` : '');
    box.append(isHit ? marked(row, line) : add(row, line));
  }
  flush();
  return box;
}

function keepScroll() {
  const log = $('log');
  if (log && log.of) scrolled.set(log.of, [log.scrollTop, log.scrollLeft]);
}

function showScroll(one) {
  const log = $('log');
  if (!log) return;
  log.of = one;
  const kept = scrolled.get(one), first = log.querySelector('.said.error');
  if (kept) [log.scrollTop, log.scrollLeft] = kept;
  else log.scrollTop = first ? Math.max(0, first.offsetTop - 40) : log.scrollHeight;
}

// the variables that the first steps of a leg set, each with the step that set it last
function variables(leg, limit) {
  const found = new Map();
  doneAt(leg, place).steps.slice(0, limit).forEach((step, at) => {
    for (const [name, value] of Object.entries(step.set)) found.set(name, [name, value, at]);
  });
  return [...found.values()].map(([name, value, at]) => [name, value, link(
    `set by step ${at} (${leg.children[at].name}) at place ${spans(leg)[at].done}`, () => { choose(leg.children[at], true); go(spans(leg)[at].done); })]);
}

function drawLeg(one) {
  if (one.values.length) section(['Matrix'], table(one.values));
  const {out, steps} = doneAt(one, place), set = variables(one, steps.length);
  if (out) section(['Outputs'], table(Object.entries(out)));
  if (set.length) section(['Variables', 'its steps set'], table(set));
}

function drawHistory(one) {
  const places = placesOf(one);
  if (!places.length) return;
  const now = upTo(places, place), from = Math.max(0, Math.min(now - 25, places.length - 50)), list = make('ol', 'history');
  for (const at of places.slice(from, from + 50)) {
    const row = make('li', at === place ? 'here' : at > place ? 'later' : '');
    row.append(placeLink(at), make('bdi', '', times ? `${happened(at)} (${clockText(at)})` : happened(at)));
    list.append(row);
  }
  section(['Entries about it', places.length > 50 ? `${from + 1} to ${Math.min(from + 50, places.length)} of ${places.length}` : ''], list);
}

// What the entry of a place changed, in words.

function changesAt(at) {
  const found = [];
  if (at <= FIRST) return found;
  for (const [block, , , ...lines] of data.steps[at - FIRST - 1]) {
    const one = blocks[block];
    if (one.kind === 'ends') continue;
    const was = headAt(one, at - 1), is = headAt(one, at);
    if (was !== is) found.push([one, `${titleOf(one)}: ${was} \u2192 ${is}`]);
    for (const line of lines.map(text)) found.push(changeOf(one, line, at));
  }
  for (const [job, [result, when]] of Object.entries(data.jobs)) {
    if (when === at && headAt(jobs[job], at).startsWith('open')) found.push([jobs[job], `${titleOf(jobs[job])}: ${result}`]);
  }
  return found;
}

// what a new line of a leg says
function changeOf(leg, line, at) {
  const [kind, number, outcome, conclusion] = line.split(' ', 4);
  if (kind === 'step') {
    const one = leg.children[Number(number)], names = Object.keys(doneAt(leg, at).steps[Number(number)].outputs);
    const words = outcome === conclusion ? outcome : `${outcome}, counts as ${conclusion}`;
    return [one, `${titleOf(one)}: ${words}${names.length ? `, with the outputs ${names.join(', ')}` : ''}`];
  }
  const names = Object.keys(JSON.parse(line.slice(4))).join(', ');
  return [leg, `${titleOf(leg)}: ${kind === 'set' ? 'later steps get the variables' : 'outputs'} ${names}`];
}

function drawChanges() {
  const list = $('changes'), found = changesAt(place);
  list.textContent = '';
  for (const [one, words] of found.slice(0, 50)) {
    const row = make('li'), name = link('', () => choose(one, true));
    name.append(make('bdi', '', words));
    row.append(name);
    list.append(row);
  }
  if (found.length > 50) list.append(make('li', 'muted', `and ${found.length - 50} more`));
  if (!found.length) list.append(make('li', 'muted', place === FIRST ? 'the first place of this page' : 'nothing on the board'));
}
