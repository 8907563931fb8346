
// Search: names choose the rows of the tree; values, logs and scripts are listed, too.

const MOST_HITS = 200;
let hits = [], hitParts = new Set(), hitCount = 0;

// a text in which what is searched for is marked
function marked(target, words) {
  const low = words.toLowerCase();
  if (!query || low.length !== words.length) return add(target, words);
  let from = 0;
  for (let at = low.indexOf(query); at >= 0; at = low.indexOf(query, from)) {
    add(target, words.slice(from, at)).append(make('mark', '', words.slice(at, at + query.length)));
    from = at + query.length;
  }
  return add(target, words.slice(from));
}

function search() {
  hits = [];
  hitParts = new Set();
  hitCount = 0;
  if (!query) return;
  for (const one of all) {
    const isNamed = one.name.toLowerCase().includes(query);
    if (isNamed) hit(one, 'name', one.name);
    if (one.script && one.script.toLowerCase().includes(query) && !(isNamed && one.script.trim() === one.name)) hit(one, 'script', one.script);
  }
  searchValues();
  for (const [key, log] of Object.entries(data.logs || {})) {
    const [leg, step] = key.split('-').map(Number), low = log.toLowerCase();
    for (let at = low.indexOf(query); at >= 0; at = low.indexOf(query, at + query.length)) hit(legs[leg].children[step], 'log', log, at);
  }
}

// outputs and variables, as the last place of the page has them
function searchValues() {
  const lines = new Set();
  data.texts.forEach((line, at) => { if (/^(step|set|out) /.test(line) && line.toLowerCase().includes(query)) lines.add(at); });
  if (!lines.size) return;
  for (const leg of legs) {
    const last = leg.lines[leg.lines.length - 1];
    if (!last.some((line) => lines.has(line))) continue;
    const {steps, out} = doneOf(last);
    const pairs = (one, where, values) => Object.entries(values || {}).forEach(([name, value]) => {
      if (`${name}=${value}`.toLowerCase().includes(query)) hit(one, where, `${name}=${value}`);
    });
    steps.forEach((step, at) => {
      pairs(leg.children[at], 'output', step.outputs);
      pairs(leg.children[at], 'variable', step.set);
    });
    pairs(leg, 'output', out);
  }
}

function hit(one, where, words, from = words.toLowerCase().indexOf(query)) {
  hitCount++;
  if (where !== 'name') hitParts.add(one);
  if (hits.length >= MOST_HITS) return;
  const begin = Math.max(words.lastIndexOf('\n', from) + 1, from - 40), end = words.indexOf('\n', from);
  hits.push({one, where, excerpt: words.slice(begin, Math.min(end < 0 ? words.length : end, from + query.length + 80)), from});
}

const wholeName = (one) => one.kind === 'step' ? `step ${one.number} of leg ${one.parent.number} (${one.parent.name})` : titleOf(one);

function drawHits() {
  const list = $('hitlist');
  list.textContent = '';
  $('hits').hidden = !query;
  $('hits').style.top = `${$('search').getBoundingClientRect().bottom + window.scrollY + 6}px`;
  put($('hitcount'), hitCount > hits.length ? `${hits.length} of ${hitCount} hits` : `${hitCount} hit${hitCount === 1 ? '' : 's'}`);
  for (const it of hits) {
    const row = make('li'), button = link('', () => show(it)), part = make('bdi', 'muted', `${it.where} of ${wholeName(it.one)}`);
    button.append(marked(make('bdi', 'excerpt'), it.excerpt), ' ', part);
    button.title = shownWords(titleOf(it.one));
    row.append(button);
    list.append(row);
  }
}

// goes to a hit: its part, at a place where that is over, and in the log its line
function show({one, where, from}) {
  const {done} = workOf(one);
  if (done !== null && done > place) go(done);
  choose(one, true);
  if (where === 'log' && $('log')) {
    const before = logOf(one).slice(0, from).split('\n').length - 1;
    $('log').scrollTop = Math.max(0, before * parseFloat(getComputedStyle($('log')).lineHeight) - 40);
    $('log').focus({preventScroll: true});
    $('log').scrollIntoView({block: 'nearest'});
  }
}
