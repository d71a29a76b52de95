// The counts of the current plan, and the drawing of lists.
const MOST_LINES = 500;

/** A list that is drawn up to a number of lines, with a button that shows the others; `count` is how many there are. */
function list(title, items, line, none, most, count = items.length) {
  const lines = h('ul', { class: 'list' }), box = h('div', { class: 'pane' }, lines);
  const draw = number => lines.replaceChildren(...items.slice(0, number).map(line));
  const isWhole = view.whole.has(title);
  draw(isWhole ? MOST_LINES : most);
  if (isWhole) lines.append(restLine(count, Math.min(MOST_LINES, items.length)));
  if (!items.length) box.replaceChildren(h('p', { class: 'empty' }, none));
  if (items.length > most && !isWhole) {
    const all = Math.min(MOST_LINES, items.length);
    box.append(h('button', { class: 'more', on: event => {
      view.whole.add(title);
      draw(MOST_LINES);
      lines.append(restLine(count, all));
      lines.children[most]?.querySelector('button, summary')?.focus();
      event.target.remove();
    } }, all < count ? 'Show the first ' + all + ' of ' + count : 'Show all ' + count));
  }
  return [h('h3', {}, title, quiet(count ? String(count) : '')), box];
}

/** A row in a list: its name, when, and a sentence. */
function line(i, when, parts) {
  return h('li', { class: late.has(i) ? 'entry past' : 'entry' },
    h('button', { class: 'go', 'data-i': i, on: () => choose(i) },
      badge(i), nameAndTime(i), h('span', { class: 'when ' + tone(i) }, when)),
    h('p', { class: 'why' }, asNodes(parts)));
}

const quiet = text => text ? [' ', h('span', { class: 'quiet' }, text)] : [];
const nameAndTime = i => h('span', {}, h('span', { class: 'name' }, name(i)), quiet(soon(ia[i])));
function tile(look, number, label, under, kind) {
  const show = () => { showKind(kind); $('#day').scrollIntoView(); };
  return h('button', { class: look + (number ? '' : ' zero'), on: show },
    h('b', {}, String(number)), label, h('small', {}, under));
}

/** How many rows of the current plan are in each state and of each kind that a tile has. */
function countStates(isCounted) {
  const counts = { C: 0, S: 0, R: 0, B: 0, F: 0, E: 0, total: 0, late: 0, risk: 0, hour: 0 };
  for (let i = 0; i < rowCount; i++) {
    const key = state(i);
    if (counts[key] === undefined || !isCounted(i)) continue;
    counts[key]++;
    counts.total++;
    if (key === 'C') continue;
    if (due[i] >= D.now && due[i] <= D.now + 60) counts.hour++;
    if (late.has(i)) counts.late++;
    else if (risk.has(i)) counts.risk++;
  }
  return counts;
}

function summary(n) {
  if (!D.plan.created) return 'There is no long-term plan yet: ltp-create makes one.';
  if (!n.total && isFiltered()) return 'Nothing of ' + findText() + ' is in the current plan.';
  if (!n.total) return 'The current plan is empty: dp-extend fills it.';
  const ends = 'It ends ' + at(D.plan.end) + (D.plan.end > D.now ? ', in ' + length(D.plan.end - D.now) : '') + '.';
  const what = isFiltered() ? 'Of ' + findText() + ' in the current plan:' : 'Current plan:';
  const counts = [['C', n.C + ' of ' + n.total + ' complete'], ['S', n.S + ' started'], ['R', n.R + ' ready'],
    ['B', n.B + ' blocked'], ['F', n.F + ' to come'], ['E', n.E + ' in error']];
  const told = ([key, text], k) => [' ', h('span', { class: 'count' }, sign(key), text + (k < 5 ? ',' : '.'))];
  return [what, counts.map(told), ' ' + ends];
}

function drawTiles() {
  const n = countStates(isWanted), all = isFiltered() ? countStates(() => true) : n;
  const under = (key, text) => isFiltered() ? 'of ' + all[key] + ' in all' : text;
  const shares = [['C', '--ok'], ['S', '--run'], ['R', '--box3'], ['B', '--hatch'], ['F', '--soft'], ['E', '--err']];
  const bar = shares.map(([key, colour]) =>
    n[key] ? h('i', { css: 'width:' + 100 * n[key] / n.total + '%;background:var(' + colour + ')' }) : '');
  const label = 'Current plan: ' + n.C + ' of ' + n.total + ' complete';
  fill('#sum', h('div', { class: 'tiles' },
    tile('err', n.E, 'in error', under('E', n.E ? 'to be repaired' : 'nothing'), 'error'),
    tile('late', n.late, 'late', under('late', n.late ? 'past the deadline' : 'nothing'), 'late'),
    tile('', n.risk, 'at risk', under('risk', 'waits for error or late'), 'risk'),
    tile('', n.hour, 'due within the hour', under('hour', 'by ' + at(D.now + 60)), 'hour'),
    tile('', n.S, 'started', under('S', 'running now'), 'started'),
    tile('', n.R, 'ready', under('R', 'arrived, not started'), 'ready')),
  n.total ? h('div', { class: 'share', role: 'img', 'aria-label': label }, bar) : '',
  h('p', { class: 'legend' }, summary(n)));
}

const none = (text, ofFiltered) => isFiltered() ? ofFiltered : text;

function drawNow() {
  drawTiles();
  drawNeeds();
  drawEnds();
}
