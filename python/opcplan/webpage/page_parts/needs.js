// What needs a person: the one list, drawn as the desk or ./plan page made it; and beside it what may be started, and
// what arrives next.
const MOST_NEEDS = 5, OVER = 9;
const NAMED = /(\S+ \d{4}-\d\d-\d\d \d\d\.\d\d \(serial \d+\))/;
/** The list, null as long as there is none; and what it was made from, or why there is none. */
const needed = {
  list: D.needs ?? null,
  note: () => 'Made from the plan’s file ' + (D.needs.lacks ? 'alone: ' + D.needs.lacks : 'and its journal') +
    '. A desk lists agents, machines and calls too.',
};

const byDue = (a, b) => due[a] - due[b] || a - b;

/** The moment of a word like 2026-11-25/06.00. */
const momentOf = word => Date.parse(word.replace('/', 'T').replace('.', ':') + 'Z') / 60000;

/** The row that a need is about, or undefined: it is about none, or the page hasn't got this row. */
function rowOfNeed({ serial: number, app: title, ia: arrival }) {
  const i = number === null ? undefined : rowOfSerial(number);
  return i !== undefined && name(i) === title && ia[i] === momentOf(arrival) ? i : undefined;
}

/** The rows that needs count: those of each need by its name, by deadline. */
function countedRows({ followers }) {
  const found = new Map();
  for (const [number, title] of Object.entries(followers)) {
    const i = rowOfSerial(+number);
    if (i !== undefined && isWanted(i)) put(found, title, i);
  }
  for (const rows of found.values()) rows.sort(byDue);
  return found;
}

/** A text in which words between backticks are code. */
const withCode = text => text.split('`').map((part, k) => k % 2 ? h('code', {}, part) : part);

/** A row as needs name it. */
const fullName = i => name(i) + ' ' + isoDay(dayOf(ia[i])) + ' ' + clock(ia[i]) + ' (serial ' + serial[i] + ')';

/** A need's text, in which the rows that it names are buttons; without the need's own row, which is above it. */
function needText(text, own) {
  const isOwn = own !== undefined && text.startsWith(fullName(own));
  const parts = (isOwn ? text.slice(fullName(own).length).trimStart() : capital(text)).split(NAMED);
  return parts.map((part, k) => {
    const i = k % 2 ? rowOfSerial(+part.match(/\d+(?=\)$)/)[0]) : undefined;
    return i !== undefined && fullName(i) === part ? reference(i) : withCode(part);
  });
}

/** The rows that a need counts, in a part that a click opens. */
function countedPart(title, rows) {
  const lines = h('ul', { class: 'list' }), lates = rows.filter(i => late.has(i)).length;
  const part = h('details', { class: 'group', 'data-key': 'counted in ' + title },
    h('summary', {}, 'Counts ' + rows.length + ' more' + (isFiltered() ? ' of those that are shown' : '') +
      (lates ? ', ' + lates + ' late' : '') + '; first due: ' + rowName(rows[0]) + ', by ' + soon(due[rows[0]])),
    lines);
  part.drawLines = () => {
    if (lines.children.length) return;
    lines.append(...rows.slice(0, MOST_LINES).map(dueLine), restLine(rows.length, MOST_LINES));
  };
  part.addEventListener('toggle', part.drawLines);
  return part;
}

const dueLine = i => line(i, ['due ' + soon(due[i]), quiet(lateness(i))], why(i));
const look = level => 'entry need' + (level > OVER ? ' over' : level ? ' worse' : '');

/** A need: its row if it is about one, what is wrong, what to do first unless the next one says the same, and what it
 *  counts. */
function needLine(need, next, rows) {
  const i = rowOfNeed(need), text = needText(need.text, i);
  const since = need.since === null ? Infinity : momentOf(need.since);
  const when = h('span', { class: 'when quiet' }, since > D.now ? '' : 'since ' + soon(since));
  return h('li', { class: look(need.level), 'data-need': need.name },
    i === undefined ? h('p', { class: 'what' }, h('span', {}, text), when)
      : [h('button', { class: 'go', 'data-i': i, on: () => choose(i) }, badge(i), nameAndTime(i), when),
        h('p', { class: 'why' }, text)],
    next?.advice === need.advice ? '' : h('p', { class: 'why' }, 'First: ', withCode(need.advice), '.'),
    rows.length ? countedPart(need.name, rows) : '');
}

/** The rows that were started in time and hold others up, in a part that a click opens. */
function busyPart(rows) {
  if (!rows.length) return '';
  const lines = rows.slice(0, MOST_LINES).map(dueLine);
  return h('details', { class: 'busy', 'data-key': 'busy' }, h('summary', {}, 'Started in time, with others waiting: ' +
    rows.length), h('ul', { class: 'list pane' }, lines, restLine(rows.length, MOST_LINES)));
}

/** The rows that were started in time, have others waiting, and aren't in the list. */
function busyRows(listed) {
  const rows = [], isWaitedFor = i => (after.get(i) || []).some(k => 'BF'.includes(state(k)));
  for (let i = 0; i < rowCount; i++) {
    if (state(i) === 'S' && !late.has(i) && isWanted(i) && !listed.has(i) && isWaitedFor(i)) rows.push(i);
  }
  return rows.sort(byDue);
}

/** Draws the list, and beside it what nobody has to repair. */
function drawNeeds() {
  const found = needed.list, note = needed.note();
  const rows = found ? countedRows(found) : new Map(), of = need => rows.get(need.name) || [];
  const shown = (found?.needs || []).filter(need => !isFiltered() || need.apps.some(matches) || of(need).length);
  const listed = new Set([...shown.map(rowOfNeed), ...shown.flatMap(of)]);
  const empty = found ? none('Nothing needs a person.', 'None of these needs a person.') : note;
  const more = found && !found.is_whole ? h('p', { class: 'quiet beside' }, 'The list has the ' + found.needs.length +
    ' worst; there are more.') : '';
  $('#needs').hidden = !D.plan.created && !shown.length;
  fill('#needs', list('Needs you', shown, (need, k, all) => needLine(need, all[k + 1], of(need)), empty, MOST_NEEDS),
    more, found ? h('p', { class: 'quiet beside', id: 'about' }, note) : '', busyPart(busyRows(listed)));
  drawNext(listed);
}

/** What may be started, by deadline, and what arrives next: of each application the next one; without the rows that the
 *  list has. */
function drawNext(listed) {
  const ready = [], next = new Map(), later = new Map();
  let elsewhere = 0;
  for (let i = 0; i < rowCount; i++) {
    const key = state(i);
    if (key !== 'R' && key !== 'F' || !isWanted(i)) continue;
    if (listed.has(i)) elsewhere += key === 'R';
    else if (key === 'R') ready.push(i);
    else if (roots[i] >= 0 && listed.has(roots[i])) continue;
    else if (next.has(app(i))) later.set(app(i), (later.get(app(i)) || 0) + 1);
    else next.set(app(i), i);
  }
  const rows = [...ready.sort(byDue), ...[...next.values()].sort((a, b) => ia[a] - ia[b] || byDue(a, b))];
  const more = i => state(i) === 'F' && later.has(app(i)) ? ['; ' + later.get(app(i)) + ' more of it later'] : [];
  fill('#next', list('Ready, and arriving next', rows,
    i => line(i, 'due ' + soon(due[i]), [...why(i), ...more(i)]),
    none('Nothing waits to be started.', 'None of these waits to be started.'), MOST_NEEDS),
  elsewhere ? h('p', { class: 'quiet beside' }, many(elsewhere, 'more is', 'more are') +
    ' ready: see “Needs you”.') : '');
}
