// The search: Enter takes what the command line takes: an application's name, alone or with a day, a minute or both, or
// a serial. As acts/resolver.py has it: of the rows that a text names, those of the first group of places that has any.
// One that fits is opened, several are listed, and if none fits, the nearest ones before and after are named.
const MOST_FOUND = 20, GROUPS = ['ESRBFC', 'L', 'H', 'Dowp'];
const PLACES = { ...WORD, W: 'waiting', S: 'started', L: 'planned' };
const SERIAL = /^(?:SERIAL\s+|#)?0{0,8}([1-9]\d{0,8})$/, MINUTE = /^(\d\d)[.:](\d\d)$/;
const FORMS = 'a day is YYYY-MM-DD, a minute HH.MM, and a moment both, with / between them';

/** The day that a text spells, or undefined. */
function dayTyped(text) {
  const turned = text.replace(/^(\d\d)\.(\d\d)\.(\d{4})$/, '$3-$2-$1');
  const day = Date.parse(turned + 'T00:00Z') / 60000 / DAY;
  return /^\d{4}-\d\d-\d\d$/.test(turned) && Number.isInteger(day) && isoDay(day) === turned ? day : undefined;
}

/** The minute of the day that a text spells, or undefined. */
function minuteTyped(text) {
  const [, hours, minutes] = text.match(MINUTE) || [];
  return hours < 24 && minutes < 60 ? 60 * hours + +minutes : undefined;
}

/** The day and the minute of the words after a name, of which one may be missing; null if they spell neither. */
function whenTyped(text) {
  if (!text) return {};
  const minute = minuteTyped(text), [first, second, ...more] = text.split(/[\s/T]+/);
  if (minute !== undefined) return { minute };
  const found = { day: dayTyped(first), minute: second === undefined ? undefined : minuteTyped(second) };
  return found.day === undefined || more.length || second !== undefined && found.minute === undefined ? null : found;
}

/** A row as the desk names one. */
const rowValue = i => ({ serial: serial[i], app: name(i), ia: isoDay(dayOf(ia[i])) + '/' + clock(ia[i]),
  place: state(i) });

/** What a text names on this page, as the desk answers it; null if it names no application and no serial. */
function foundHere(text) {
  const number = text.match(SERIAL), [title, ...words] = text.split(/\s+/);
  const answer = more => ({ found: { row: null, choices: [], why: '', before: null, after: null, ...more } });
  if (number) {
    const i = rowOfSerial(+number[1]);
    if (i !== undefined) return answer({ row: rowValue(i) });
    return D.apps.some(one => one[0].includes(text)) ? null
      : answer({ why: 'No occurrence on this page has the serial ' + number[1] + '.' });
  }
  const k = D.apps.findIndex(one => one[0] === title);
  if (k < 0) return null;
  const when = whenTyped(words.join(' '));
  if (!when) return { wrong: '“' + words.join(' ') + '” is neither a day nor a minute nor a moment: ' + FORMS + '.' };
  const all = perApp.get(k) || [], fits = all.filter(i => (when.day ?? dayOf(ia[i])) === dayOf(ia[i]) &&
    (when.minute ?? ia[i] % DAY) === ia[i] % DAY);
  for (const group of GROUPS) {
    const rows = fits.filter(i => group.includes(state(i))).map(rowValue);
    if (rows.length) return answer(rows.length > 1 ? { choices: rows } : { row: rows[0] });
  }
  return answer(nearestHere(title, all.filter(i => !isGone(i)), when));
}

/** The nearest rows of an application, if none of it arrives when it is asked for, with a sentence. */
function nearestHere(title, rows, { day, minute }) {
  const end = D.plan.end ?? D.now, isMoment = day !== undefined || minute !== undefined;
  const moment = isMoment ? (day ?? dayOf(end)) * DAY + (minute ?? 0) : end;
  const near = [rows.filter(i => ia[i] <= moment).at(-1), rows.find(i => ia[i] > moment)];
  const [earlier, later] = near.map(i => i === undefined ? null : rowValue(i));
  return { before: earlier, after: later, why: rows.length ? 'No run of ' + title + ' on this page arrives then.'
    : 'The application ' + title + ' has no run on this page.' };
}

/** Opens the row that is meant, or shows what else was found. */
function openMeant(text, answer) {
  const { found } = answer, i = found?.row ? rowOfSerial(found.row.serial) : undefined;
  if (i === undefined) return showFound(text, answer);
  $('#find').value = '';
  find();
  choose(i);
  $('#card').focus();
}

/** Shows several runs that fit, or why there is none, in the place of a card. */
function showFound(text, answer) {
  const why = answer.wrong || answer.why_not || whyFound(text, answer.found);
  Object.assign(view, { pick: -1, app: -1, other: () => drawFound(text, why, answer.found) });
  address(-1);
  showCard();
  $('#card').focus({ preventScroll: true });
  say(why);
}

/** What is said of what was found. */
function whyFound(text, { row, choices, why }) {
  if (row) return meantText(row) + '. It isn’t on this page, whose months go from ' + dayName(D.first * DAY) + ' to ' +
    dayName(D.last * DAY) + '.';
  return choices.length ? choices.length + ' runs fit ' + text + '.' : why;
}

const meantText = ({ app: title, ia: arrival, place, serial: number }) => title + ' ' + arrival.replace('/', ' ') +
  ', ' + PLACES[place] + ' (serial ' + number + ')';

/** A run that is named: a button if the page has it. */
function foundLine(row) {
  const i = rowOfSerial(row.serial);
  return h('li', {}, i === undefined ? meantText(row) : link(i, PLACES[row.place], false));
}

function drawFound(text, why, found) {
  const choices = found?.choices || [], k = D.apps.findIndex(one => one[0] === text.split(/\s/)[0]);
  const more = rest(choices.length, MOST_FOUND, ': name the day, as ' + text.split(/\s/)[0] + ' 2026-11-25');
  const nearest = [['Before', found?.before], ['After', found?.after]].filter(one => one[1]);
  fill('#card', close(), h('h2', {}, text), h('p', {}, withCode(why)),
    choices.length ? h('ul', { class: 'tree' }, choices.slice(0, MOST_FOUND).map(foundLine)) : '',
    more ? h('p', { class: 'quiet' }, more) : '',
    nearest.map(([title, row]) => [h('h3', {}, title), h('ul', { class: 'tree' }, foundLine(row))]),
    k < 0 ? '' : h('p', { class: 'foot' }, h('button', { class: 'in', 'data-a': k, on: () => showApp(k) },
      'All of ' + D.apps[k][0])));
}

/** Opens what the search names, or the first application that it begins or is part of. */
function openFound() {
  const text = $('#find').value.trim().toUpperCase(), found = text ? foundHere(text) : null;
  if (found) return openMeant(text, found);
  const of = test => text ? D.apps.findIndex(test) : -1;
  const k = [of(one => one[0].startsWith(text)), of(one => one[0].includes(text))].find(one => one >= 0);
  if (k === undefined) return;
  showApp(k);
  $('#card').focus();
}
