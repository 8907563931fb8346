// Moves and choices.

let told = 0, addressing = 0;

function go(wanted, quiet) {
  const next = Math.min(LAST, Math.max(FIRST, Number.isFinite(wanted) ? Math.round(wanted) : LAST));
  place = next;
  const words = happened(place), said = $('place');
  $('slider').value = place;
  $('slider').setAttribute('aria-valuetext', `place ${place} of ${data.total}: ${words}`);
  said.replaceChildren(make('b', '', `place ${place} of ${data.total}`), make('bdi', 'muted', times ? ` \u2003${clockText(place)}` : ''), make('span', '', words));
  const share0 = share(place);
  if (view[1] - view[0] < 1 && (share0 < view[0] || share0 >= view[1])) zoom(1);
  draw();
  drawDetails();
  drawChanges();
  if (!quiet) {
    clearTimeout(told);
    told = setTimeout(() => put($('said'), `place ${place} of ${data.total}: ${words}`), playing ? 1500 : 250);
    address();
  }
}

// one or more entries on or back, with the view on what changed
function walk(by) {
  const next = Math.min(LAST, Math.max(FIRST, place + by)), one = follow && next !== place && aboutAt(next);
  if (one) take(one, true);
  go(next);
}

function choose(one, reveal) {
  take(one, reveal);
  draw();
  drawDetails();
  address();
}

function take(one, reveal) {
  chosen = one;
  if (reveal) for (let it = one.parent; it; it = it.parent) it.open = true;
  if (one.row < 0) flatten();
  if (one.row < 0) { // (search or filter hide it)
    query = $('search').value = '';
    only = $('only').checked = false;
    flatten();
  }
  scrollTo(one);
  $('rows').setAttribute('aria-activedescendant', `row-${one.id}`);
}

// The address has the place and the chosen part.

const nameOf = (one) => one.kind === 'step' ? `step-${one.parent.number}-${one.number}` : `${one.kind}-${one.number}`;

function address() {
  clearTimeout(addressing);
  addressing = setTimeout(() => {
    const wanted = `#${place}/${nameOf(chosen)}`;
    if (location.hash !== wanted) history.replaceState(null, '', wanted);
  }, 120);
}

// goes where the address says; false if it names no place
function goToAddress() {
  const [, at, kind, first, second] = /^#(\d+)(?:\/(run|job|leg|step)-(\d+)(?:-(\d+))?)?$/.exec(location.hash) || [];
  if (at === undefined) return false;
  const one = kind && (kind === 'step' ? legs[first] && legs[first].children[second] : {run: runs, job: jobs, leg: legs}[kind][first]);
  if (one) take(one, true);
  go(Number(at), true);
  return true;
}

function scrollTo(one) {
  if (one.row < 0) return;
  const box = $('rows'), top = one.row * HEIGHT;
  if (top < box.scrollTop) box.scrollTop = Math.max(0, top - HEIGHT);
  else if (top + HEIGHT > box.scrollTop + box.clientHeight) box.scrollTop = top + 2 * HEIGHT - box.clientHeight;
}

function toggle(one) {
  one.open = !one.open && one.children.length > 0;
  flatten();
  draw();
}

// shows a part of the timeline round the place
function zoom(factor) {
  const wide = Math.min(1, Math.max((view[1] - view[0]) * factor, Math.min(1, 8 / (LAST - FIRST + 1))));
  const start = Math.min(Math.max(0, share(place) - wide / 2), 1 - wide);
  view = [start, start + wide];
  relayout();
}

function relayout() {
  tree = parseInt(getComputedStyle(document.documentElement).getPropertyValue('--tree'), 10);
  mark($('grip'), {'aria-valuenow': tree, 'aria-valuemin': 140, 'aria-valuemax': Math.max(200, $('rows').clientWidth - 120)});
  laneWidth = Math.max(40, $('rows').clientWidth - tree - 22); // (the last marks have room)
  forget();
  drawAxis();
  draw();
}

function about(step) {
  const places = placesOf(chosen), next = places[step > 0 ? upTo(places, place) : upTo(places, place - 1) - 1];
  if (next !== undefined) go(next);
}

// to the next or previous of what a person looks for; from anywhere else to the next or previous failure
function seek(step) {
  const here = troubles.findIndex((it) => it.place === place && it.one === chosen);
  let next = here + step;
  if (here < 0) {
    next = troubles.findIndex((it) => it.rank === 'failure' && it.place > place);
    if (next < 0) next = troubles.findIndex((it) => it.rank !== 'failure');
    if (step < 0) next = troubles.findLastIndex((it) => it.rank === 'failure' && it.place < place);
  }
  const found = troubles[step > 0 ? Math.max(next, 0) % Math.max(troubles.length, 1) : next];
  if (!found) { put($('said'), 'nothing further'); return; }
  take(found.one, true);
  go(found.place);
}

// the tree: right opens a row and then goes into it, left closes it and then goes to the row round it
function unfold(opens) {
  if (opens && chosen.children.length) {
    if (chosen.shownOpen) choose(chosen.children.find((it) => it.row >= 0) || chosen); else toggle(chosen);
  } else if (!opens && chosen.shownOpen && !query) {
    toggle(chosen);
  } else if (!opens && chosen.parent) {
    choose(chosen.parent);
  }
}

function play(on) {
  clearInterval(playing);
  playing = 0;
  put($('play'), on ? 'Stop' : 'Play');
  if (!on) return;
  if (place >= LAST) go(FIRST);
  const size = LAST - FIRST, stride = Math.max(1, Math.round(size / 1500));
  playing = setInterval(() => { walk(stride); if (place >= LAST) play(false); }, Math.min(500, Math.max(40, 20000 / Math.max(1, size))));
}

const ACTS = {
  start: () => go(FIRST), end: () => go(LAST), back: () => walk(-1), on: () => walk(1), fail: () => seek(1), play: () => play(!playing),
};
function move(step) {
  const next = rows[Math.min(rows.length - 1, Math.max(0, (chosen.row < 0 ? 0 : chosen.row + step)))];
  if (next) choose(next);
}
const KEYS = {
  ArrowRight: ACTS.on, ArrowLeft: ACTS.back, Home: ACTS.start, End: ACTS.end, n: () => about(1), p: () => about(-1), f: ACTS.fail, F: () => seek(-1),
  '.': ACTS.on, ',': ACTS.back, w: () => $('follow').click(),
  ' ': ACTS.play, ArrowDown: () => move(1), ArrowUp: () => move(-1), PageDown: () => move(15), PageUp: () => move(-15), Enter: () => toggle(chosen),
  '+': () => zoom(0.5), '=': () => zoom(0.5), '-': () => zoom(2), 0: () => { view = [0, 1]; relayout(); }, '/': () => $('search').focus(),
  '?': () => $('help').showModal(),
};
const OF_TREE = new Set(['ArrowDown', 'ArrowUp', 'PageDown', 'PageUp', 'Enter']);
const SCROLLS = new Set(['ArrowDown', 'ArrowUp', 'ArrowLeft', 'ArrowRight', 'PageDown', 'PageUp', 'Home', 'End', ' ']);
const FOLDS = {ArrowRight: true, ArrowLeft: false};

document.addEventListener('keydown', (event) => {
  const {key} = event, target = event.target.closest ? event.target : document.body;
  if (event.ctrlKey || event.metaKey || event.altKey || $('help').open) return;
  if (target.id === 'search') {
    if (key === 'Escape' && !target.value) $('rows').focus();
    if (key === 'Enter') { const first = rows.find(matches); if (first) choose(first); $('rows').focus(); }
    if (key === 'ArrowDown' && hits.length) { event.preventDefault(); $('hitlist').querySelector('button').focus(); }
    return;
  }
  if (target.closest('#hits')) { hitKey(event); return; }
  if (target.closest('#log, #changes') && SCROLLS.has(key)) return;
  if (target.id === 'grip' && Object.hasOwn(FOLDS, key)) { event.preventDefault(); widen(tree + (FOLDS[key] ? 20 : -20)); return; }
  if (target.closest('#rows') && Object.hasOwn(FOLDS, key)) { event.preventDefault(); unfold(FOLDS[key]); return; }
  const native = target.closest('button, summary, input[type=checkbox]');
  if (native && (key === ' ' || key === 'Enter')) return;
  if (OF_TREE.has(key) && (target.closest('#details') || (target.id === 'slider' && key === 'Enter'))) return;
  if (!Object.hasOwn(KEYS, key)) return;
  event.preventDefault();
  if (playing && key !== ' ') play(false);
  KEYS[key]();
});
document.querySelectorAll('[data-act]').forEach((button) => button.addEventListener('click', () => ACTS[button.dataset.act]()));
$('slider').addEventListener('input', (event) => go(Number(event.target.value)));
$('rows').addEventListener('scroll', () => requestAnimationFrame(draw), {passive: true});
$('search').addEventListener('input', (event) => {
  query = event.target.value.trim().toLowerCase();
  search();
  drawHits();
  flatten();
  $('rows').scrollTop = 0;
  draw();
});
$('follow').addEventListener('change', (event) => { follow = event.target.checked; });
$('nohits').addEventListener('click', () => { $('hits').hidden = true; $('search').focus(); });
$('only').addEventListener('change', (event) => { only = event.target.checked; flatten(); draw(); });
$('clock').addEventListener('change', (event) => { byClock = event.target.checked; view = [0, 1]; relayout(); });
$('keys').addEventListener('click', () => $('help').showModal());
$('close').addEventListener('click', () => $('help').close());
for (const name of ['pointerdown', 'pointermove']) {
  $('axis').addEventListener(name, (event) => { if (event.buttons & 1) go(placeAt(event.clientX - $('axis').getBoundingClientRect().left)); });
}
window.addEventListener('hashchange', goToAddress);
window.addEventListener('resize', relayout);

// up and down walk the hits, Escape leaves them
function hitKey(event) {
  const buttons = [...$('hits').querySelectorAll('button')], at = buttons.indexOf(document.activeElement), {key} = event;
  if (key === 'Escape') { $('hits').hidden = true; $('search').focus(); }
  if (key !== 'ArrowDown' && key !== 'ArrowUp') return;
  event.preventDefault();
  buttons[Math.min(buttons.length - 1, Math.max(0, at + (key === 'ArrowDown' ? 1 : -1)))].focus();
}

// How wide the tree is.

function widen(pixels) {
  const most = Math.max(200, $('rows').clientWidth - 120);
  document.documentElement.style.setProperty('--tree', `${Math.round(Math.min(most, Math.max(140, pixels)))}px`);
  relayout();
}
$('grip').addEventListener('pointerdown', (event) => { $('grip').setPointerCapture(event.pointerId); event.preventDefault(); $('grip').focus(); });
$('grip').addEventListener('pointermove', (event) => {
  if ($('grip').hasPointerCapture(event.pointerId)) widen(event.clientX - $('rows').getBoundingClientRect().left);
});

// On paper are all rows.

for (const [name, yes] of [['beforeprint', true], ['afterprint', false]]) {
  window.addEventListener(name, () => { printing = yes; draw(); });
}

// The first view.

function begin() {
  put($('title'), runs.length === 1 ? runs[0].name : `${runs.length} runs: ${runs.slice(0, 3).map((it) => it.name).join(', ')}`);
  put($('repository'), data.repository);
  const tally = {run: {}, job: {}, leg: {}, step: {}};
  for (const one of all) {
    const {state} = stand(one, LAST);
    if (one.kind === 'run' || BAD.has(state)) (tally[one.kind][state] ||= []).push(one);
  }
  for (const [kind, states] of Object.entries(tally)) {
    for (const [state, found] of Object.entries(states)) {
      const badge = make('li', `badge of-${kind} s-${state}`), words = {passed: 'tolerated', failure: 'failed', success: 'succeeded', running: 'going', fresh: 'new'};
      badge.append(icon(state), make('span', '', `${found.length} ${kind}${found.length > 1 ? 's' : ''} ${words[state] || state}`));
      if (kind === 'run' || state === 'failure') $('results').append(badge);
    }
  }
  if (FIRST > 0 || LAST < data.total) {
    $('window').hidden = false;
    put($('window'), `This page shows the places ${FIRST} to ${LAST} of ${data.total}. Other places: actrun report ${data.record} --around K`);
  }
  for (const [kind, words] of [['success', 'success'], ['failure', 'failure'], ['passed', 'tolerated'], ['calling', 'in a call'], ['going thin', 'going'],
    ['waiting thin', 'waits for its group'], ['admitted thin', 'waits for a worker']]) {
    const item = make('li');
    item.append(make('span', `bar ${kind}`), make('span', '', words));
    $('legend').append(item);
  }
  Object.assign($('slider'), {min: FIRST, max: LAST});
  for (const [left, rank] of new Map([...troubles].reverse().map((it) => [Math.round((it.place - FIRST) / Math.max(1, LAST - FIRST) * 1000) / 10, it.rank]))) {
    if (rank === 'skipped') continue;
    $('marks').append(make('i', rank));
    $('marks').lastChild.style.left = `${left}%`;
  }
  $('fail').disabled = !troubles.length;
  if (troubles.length && troubles[0].rank !== 'failure') put($('fail'), `Next ${troubles[0].rank}`);
  $('clocked').hidden = !times;
  byClock = $('clock').checked = Boolean(times);
  for (const one of all) one.open = all.length <= 300 || one.kind === 'run' || (one.kind === 'job' && one.children.length <= 16 && all.length <= 20000);
  const tolerated = (one) => one && (stand(one, LAST).state === 'passed' || tolerated(one.parent));
  const first = troubles.find((it) => it.rank === 'failure' && !tolerated(it.one)) || troubles.find((it) => ['cancelled', 'displaced'].includes(it.rank));
  chosen = (first || troubles[0] || {one: runs[0]}).one;
  for (let it = chosen.parent; it; it = it.parent) it.open = true;
  flatten();
  relayout();
  take(chosen);
  if (!goToAddress()) go(LAST, true);
  document.documentElement.dataset.ready = 'yes';
}
begin();
