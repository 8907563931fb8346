// Bars of a lane: from, to, kind, title; a mark has no end.

function barsOf(one) {
  if (one.bars) return one.bars;
  const found = [], over = [], end = LAST + 1;
  const note = (from, to, kind, words, list = found) => list.push({from, to, kind, words});
  if (one.kind === 'step') {
    const {begin, done} = spans(one.parent)[one.number], final = stand(one, LAST);
    if (begin !== null) note(begin, done === null ? end : done, done === null ? 'calling' : final.state, final.says);
    else if (done !== null && done > FIRST) note(done, null, final.state, final.says);
    return (one.bars = found);
  }
  one.places.forEach((from, at) => {
    const head = text(one.heads[at]), words = head.split(' '), until = at + 1 < one.places.length ? one.places[at + 1] : end;
    const previous = found[found.length - 1];
    const ended = {closed: 1, shut: 1, ended: 1}[words[0]];
    if (ended) {
      if (from > FIRST && !(at && text(one.heads[at - 1]) === head)) note(from, null, stand(one, from).state, head);
      return;
    }
    const kind = {going: 'going', open: 'open', running: 'going', waiting: 'waiting', admitted: 'admitted'}[words[0]];
    if (!kind) return;
    const result = words[0] === 'open' && data.jobs[one.number];
    if (result && result[1] <= from) return;
    const to = result ? result[1] : until;
    if (previous && previous.to === from && previous.kind === kind) previous.to = to;
    else note(from, to, kind, head);
    if (result && result[1] <= LAST) note(result[1], null, result[0], `${head}: ${result[0]}`);
  });
  if (one.kind === 'leg') {
    spans(one).forEach(({begin, done}, at) => {
      if (begin === null) return;
      const final = stand(one.children[at], LAST);
      note(begin, done === null ? end : done, done === null ? 'calling' : final.state, `step ${at} (${one.children[at].name}): ${final.says}`, over);
    });
  }
  return (one.bars = [...found, ...over]);
}

function drawLane(one, lane) {
  lane.textContent = '';
  lane.spans = [];
  let lastX = -9;
  for (const {from, to, kind, words} of barsOf(one)) {
    const left = x(from), right = to === null ? left + 17 : x(to);
    if (right < -20 || left > laneWidth + 20) continue;
    const bar = make('div', to === null ? `dot s-${kind}` : `bar ${kind}`);
    if (to === null) bar.append(icon(kind));
    else if (['going', 'open', 'waiting', 'admitted'].includes(kind)) bar.classList.add('thin');
    const shown = Math.max(left, -10), thin = bar.classList.contains('thin');
    if (to !== null && !thin && kind === 'success' && right - lastX < 0.5) continue; // (another bar has this pixel)
    if (to !== null && !thin) lastX = right;
    bar.style.left = inLane(shown);
    if (to !== null) bar.style.width = inLane(Math.max(2, Math.min(right, laneWidth + 10) - shown - (right - left > 6 ? 1 : 0)));
    const took = to === null || !times ? '' : `, ${between(from, to)}`;
    bar.title = shownWords(`${titleOf(one)}: ${words}, place ${from}${to === null || to > LAST ? '' : ` to ${to}`}${took}`);
    lane.append(bar);
    lane.spans.push({bar, from, to});
  }
  if (one.kind === 'leg' && one.values.length) drawLabel(one, lane);
}

// the combination of a leg, behind its bars where there is room, else before them
function drawLabel(one, lane) {
  const spots = lane.spans.map(({from, to}) => [x(from), to === null ? x(from) + 18 : x(to)]);
  if (!spots.length) return;
  const end = Math.max(...spots.map((it) => it[1])), start = Math.min(...spots.map((it) => it[0])), room = laneWidth + 22 - end;
  const label = make('bdi', 'label', one.values.map((it) => it[1]).join(', '));
  if (room >= 60) Object.assign(label.style, {left: inLane(end + 5), maxWidth: `${room - 8}px`});
  else if (start >= 60) Object.assign(label.style, {right: `calc(100% - ${inLane(start - 5)})`, maxWidth: `${start - 8}px`});
  else return;
  lane.append(label);
}

// a length in a lane as a part of its width, so that it fits a printed page too; the last marks have room behind it
const inLane = (pixels) => `calc((100% - 22px) * ${(pixels / laneWidth).toFixed(6)})`;

// a text without marks of its own, for places that show no elements
const shownWords = (words) => words.replace(CONTROL, '?').replace(new RegExp(MARKS, 'g'), '');

const matches = (one) => one.name.toLowerCase().includes(query) || `${one.kind} ${one.number}` === query || hitParts.has(one);

function flatten() {
  rows = [];
  const wanted = query, hit = new Set();
  let hits = 0;
  if (wanted) {
    for (const one of all) {
      if (!matches(one) || (only && !one.some)) continue;
      hits++;
      for (let it = one; it && !hit.has(it); it = it.parent) hit.add(it);
    }
  }
  const visit = (one) => {
    if ((only && !one.some) || (wanted && !hit.has(one))) return;
    rows.push(one);
    one.row = rows.length - 1;
    one.shownOpen = one.children.length > 0 && (wanted ? one.children.some((it) => hit.has(it)) || one.open : one.open);
    if (one.shownOpen) one.children.forEach(visit);
  };
  all.forEach((one) => { one.row = -1; });
  runs.forEach(visit);
  put($('found'), wanted ? `${hits} found` : only ? `${rows.length} rows` : '');
  $('sheet').style.height = `${rows.length * HEIGHT}px`;
  forget();
}

const visible = new Map();

function forget() {
  visible.forEach((it) => it.element.remove());
  visible.clear();
}

function makeRow(one) {
  const element = make('div', `row ${one.kind}`), cell = make('div', 'cell'), siblings = one.parent ? one.parent.children : runs;
  mark(element, {id: `row-${one.id}`, role: 'treeitem', 'aria-level': one.level, 'aria-setsize': siblings.length,
    'aria-posinset': siblings.indexOf(one) + 1, ...(one.children.length ? {'aria-expanded': one.shownOpen} : {})});
  element.style.setProperty('--level', one.level);
  const twist = mark(make('span', 'twist', one.children.length ? '\u25b6\ufe0e' : ''), {'aria-hidden': 'true'});
  twist.addEventListener('click', (event) => { event.stopPropagation(); toggle(one); });
  const name = marked(make('bdi', 'name'), one.label || one.name);
  const says = make('span', 'says'), took = make('span', 'took'), picture = make('span', 'picture');
  const lane = mark(make('div', 'lane'), {'aria-hidden': 'true'});
  cell.append(twist, picture, make('span', 'kind', `${one.kind} ${one.number}`), name, says, took);
  cell.addEventListener('click', () => choose(one));
  cell.addEventListener('dblclick', () => toggle(one));
  lane.addEventListener('click', (event) => { choose(one); go(placeAt(event.clientX - lane.getBoundingClientRect().left)); });
  element.append(cell, lane);
  drawLane(one, lane);
  return {element, cell, picture, says, took, lane, state: '', words: ''};
}

const MOST_PRINTED = 500;
let printing = false;

function draw() {
  const box = $('rows'), from = printing ? 0 : Math.max(0, Math.floor(box.scrollTop / HEIGHT) - 6);
  const to = Math.min(rows.length, printing ? MOST_PRINTED : Math.ceil((box.scrollTop + box.clientHeight) / HEIGHT) + 6);
  for (const [one, it] of visible) {
    if (one.row < from || one.row >= to) {
      it.element.remove();
      visible.delete(one);
    }
  }
  let next = null;
  for (let at = to - 1; at >= from; at--) {
    const one = rows[at];
    if (!visible.has(one)) {
      visible.set(one, makeRow(one));
      visible.get(one).element.style.top = `${at * HEIGHT}px`;
      $('sheet').insertBefore(visible.get(one).element, next);
    }
    next = visible.get(one).element;
    update(one, visible.get(one));
  }
  const column = x(place), end = Math.max(column + 2, x(place + 1));
  const lanes = box.offsetLeft + tree;
  const set = (id, left, width) => Object.assign($(id).style, {left: `${lanes + left}px`, width: `${Math.max(0, width)}px`});
  $('head').hidden = column < -1 || column > laneWidth;
  set('head', column, Math.min(end, laneWidth) - column);
  $('veil').hidden = place === LAST; // (the marks of the last place are behind its column)
  set('veil', Math.min(Math.max(end, 0), laneWidth), laneWidth + 22 - Math.max(end, 0));
}

function update(one, it) {
  const {says, state, more} = stand(one, place), words = more ? `${says} \u00b7 ${more}` : says;
  if (it.state !== state) it.picture.replaceChildren(icon(state));
  if (it.words !== words || it.state !== state) {
    put(it.says, says);
    it.says.dataset.line = says;
    if (more) add(it.says, ` \u00b7 ${more}`);
    it.element.setAttribute('aria-label', `${titleOf(one)}: ${words || 'not begun'}`);
  }
  const took = tookAt(one, place), whole = shownWords(`${titleOf(one)}: ${words || 'not begun'}${took && `, ${took}`}`);
  if (it.took.textContent !== took) it.took.textContent = took;
  if (it.cell.title !== whole) it.cell.title = whole;
  Object.assign(it, {state, words});
  it.element.classList.toggle('changed', place > FIRST && isChanged(one));
  it.element.setAttribute('aria-selected', one === chosen);
  for (const {bar, from, to} of it.lane.spans) if (to !== null) bar.classList.toggle('live', from <= place && place < to);
}

// whether the entry that led to the place changed the thing's own line
function isChanged(one) {
  if (one.kind === 'step') return Object.values(spans(one.parent)[one.number]).includes(place);
  return one.places[indexAt(one, place)] === place;
}

function drawAxis() {
  const axis = $('axis'), low = placeAt(0), high = placeAt(laneWidth);
  axis.textContent = '';
  const wide = byClock ? (times[LAST - FIRST] - times[0]) / 1000 * (view[1] - view[0]) : (LAST - FIRST + 1) * (view[1] - view[0]);
  const least = wide / Math.max(1, laneWidth / 80);
  let step = 10 ** Math.ceil(Math.log10(Math.max(least, byClock ? 0.001 : 1)));
  for (const part of [5, 2]) if (step / part >= least && (byClock || step / part >= 1)) { step /= part; break; }
  const tick = (left, words) => {
    if (left < -1 || left > laneWidth - 20) return;
    const one = make('i', '', words);
    one.style.left = `${left}px`;
    axis.append(one);
  };
  if (byClock) {
    const start = times[0], end = times[LAST - FIRST] * 1.01 + 1;
    for (let at = Math.floor(start / 1000 / step) * step; at * 1000 <= end; at += step) {
      tick(((at * 1000 - start) / (end - start) - view[0]) / (view[1] - view[0]) * laneWidth, `${Number(at.toFixed(3))} s`);
    }
  } else {
    for (let at = Math.ceil(low / step) * step; at <= high; at += step) tick(x(at), String(at));
  }
}
