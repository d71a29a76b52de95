// Lines for several rows, which a click opens: the runs of one application through the day, and if there are too many
// rows, the applications whose names begin alike.
const MOST_GROUPS = 80, FOLDED_FROM = 3, FOLDING = ['open', 'all'];

/** How many letters the names of a group share, so that there are few groups. */
function sharedLetters(rows) {
  const names = [...new Set(rows.map(app))].map(k => D.apps[k][0]);
  for (let n = 16; n > 0; n--) if (new Set(names.map(text => text.slice(0, n))).size <= MOST_GROUPS) return n;
  return 0;
}

/** A line for several rows, with these below it if it is opened. */
function foldOf(key, title, rows, inside = rows) {
  if (view.reveal && rows.includes(view.pick)) view.opened.add(key);
  return [{ key, title, rows }, ...(view.opened.has(key) ? inside : [])];
}

/** The lines of rows, with one line for several runs of an application. */
function foldedRuns(rows) {
  if (!FOLDING.includes(view.kind)) return rows;
  const runs = new Map();
  for (const i of rows) put(runs, app(i), i);
  return rows.flatMap(i => {
    const inside = runs.get(app(i));
    if (inside.length < FOLDED_FROM) return [i];
    return inside[0] === i ? foldOf('runs ' + name(i), name(i), inside) : [];
  });
}

/** The lines of the day: rows, lines for several runs of an application, and if these are too many, groups of
 *  applications. */
function linesOf(rows) {
  const folded = foldedRuns(rows), groups = new Map(), letters = folded.length > 400 ? sharedLetters(rows) : 0;
  for (const i of letters ? rows : []) put(groups, name(i).slice(0, letters), i);
  const isGrouped = groups.size > 1;
  const lines = !isGrouped ? folded
    : [...groups].flatMap(([key, inside]) => foldOf('group ' + key, key + '…', inside, foldedRuns(inside)));
  view.reveal = false;
  return lines;
}

/** A line for several rows: what they are, and how many of them are in error or late. */
function groupRow({ key, title, rows }, n) {
  const errors = rows.filter(KINDS.error).length, lates = rows.filter(KINDS.late).length;
  const told = [errors ? errors + ' in error' : '', lates ? lates + ' late' : ''].filter(Boolean).join(', ');
  const isOpened = view.opened.has(key), isRuns = key.startsWith('runs ');
  const text = many(rows.length, isRuns ? 'run' : 'row') + (told ? ', ' + told : '');
  const look = errors ? 'is-error' : lates ? 'is-late' : '';
  return h('li', {}, h('button', { class: 'row group', 'data-key': key, tabindex: n ? -1 : 0,
    'aria-expanded': String(isOpened), 'aria-label': (isRuns ? title : 'Names that begin with ' + title.slice(0, -1)) +
      ': ' + text,
    on: () => {
      if (isOpened) view.opened.delete(key); else view.opened.add(key);
      keepFocus(drawDay);
    } },
  h('span', { class: 'lab' }, h('span', { class: 'fold', 'aria-hidden': 'true' }, isOpened ? '▾' : '▸'),
    h('span', { class: 'name ' + look }, title), h('em', {}, String(rows.length)),
    told && h('small', { class: look }, told)),
  h('span', { class: 'way', 'aria-hidden': 'true' }, isRuns ? runsOf(rows) : hours(rows))));
}

/** The runs of an application in one picture, in minutes: a box for each, and a line if one is late. */
function runsOf(rows) {
  const boxes = new Map(), x = minute => Math.min(Math.max(minute - view.from, -20), DAY + 20);
  let lines = '';
  for (const i of rows) {
    const left = x(ia[i]), right = Math.max(x(due[i]), left + 6), [top, high] = 'CH'.includes(state(i)) ? [34, 32]
      : [20, 60];
    const box = 'M' + left + ' ' + top + 'H' + right + 'v' + high + 'H' + left + 'z';
    boxes.set(state(i), (boxes.get(state(i)) || '') + box);
    if (late.has(i)) lines += 'M' + right + ' 50H' + Math.max(x(D.now), right);
  }
  return s('svg', { class: 'track', viewBox: '0 0 ' + DAY + ' 100', preserveAspectRatio: 'none' },
    [...boxes].map(([key, path]) => s('path', { class: 'k ' + key, d: path })),
    lines ? s('path', { class: 'over', d: lines }) : '');
}

/** How many rows arrive in each hour of the window, as columns; those that arrived before have none. */
function hours(rows) {
  const perHour = new Array(24).fill(0), worst = new Array(24).fill('');
  for (const i of rows) {
    const hour = Math.floor((ia[i] - view.from) / 60);
    if (hour < 0 || hour > 23) continue;
    perHour[hour]++;
    if (tone(i) === 'is-error' || !worst[hour]) worst[hour] = tone(i);
  }
  const most = Math.max(...perHour);
  return s('svg', { class: 'track', 'aria-hidden': 'true' },
    perHour.map((number, hour) => number ? s('rect', { class: 'column ' + worst[hour], x: hour * 100 / 24 + .2 + '%',
      width: 100 / 24 - .4 + '%', y: 90 - 80 * number / most + '%', height: 80 * number / most + '%' }) : ''));
}
