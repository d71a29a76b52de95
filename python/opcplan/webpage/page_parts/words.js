// Texts for times and states, and functions that make elements.
const WORD = { E: 'in error', S: 'started', R: 'ready, not started', B: 'blocked', F: 'its time is to come',
  C: 'complete', D: 'deleted', L: 'planned', H: 'complete, in history', o: 'deleted by an operator', w: 'withdrawn',
  p: 'deleted in the current plan' };
const LETTER = { F: 'W', D: '×', o: '×', w: '×', p: '×' };
const WEEKDAYS = 'Sun Mon Tue Wed Thu Fri Sat'.split(' ');
const MONTHS = 'Jan Feb Mar Apr May Jun Jul Aug Sep Oct Nov Dec'.split(' ');
const $ = selector => document.querySelector(selector);

// Moments have no zone: only the UTC functions are used.
const dateOf = minute => new Date(minute * 60000);
const two = number => String(number).padStart(2, '0');
const clock = minute => two(Math.floor(minute / 60) % 24) + '.' + two(minute % 60);
const monthName = minute => MONTHS[dateOf(minute).getUTCMonth()] + ' ' + dateOf(minute).getUTCFullYear();
const year = minute => dateOf(minute).getUTCFullYear();

function dayName(minute) {
  const date = dateOf(minute);
  const text = WEEKDAYS[date.getUTCDay()] + ' ' + date.getUTCDate() + ' ' + MONTHS[date.getUTCMonth()];
  return year(minute) === year(D.now) ? text : text + ' ' + year(minute);
}

const at = minute => (dayOf(minute) === dayOf(D.now) ? '' : dayName(minute) + ' ') + clock(minute);

/** A moment in few letters: only the weekday if it is one of the seven days around now. */
function soon(minute) {
  const days = dayOf(minute) - dayOf(D.now);
  if (!days) return clock(minute);
  return (Math.abs(days) > 3 ? dayName(minute) : WEEKDAYS[dateOf(minute).getUTCDay()]) + ' ' + clock(minute);
}

/** A row by name and arrival, which distinguish it from the others of its application. */
const rowName = i => name(i) + ' ' + soon(ia[i]);

function length(minutes) {
  if (minutes < 60) return minutes + ' min';
  if (minutes < DAY) return Math.floor(minutes / 60) + ' h' + (minutes % 60 ? ' ' + two(minutes % 60) : '');
  const hours = Math.floor(minutes % DAY / 60);
  return Math.floor(minutes / DAY) + ' d' + (hours ? ' ' + hours + ' h' : '');
}

const many = (number, one, more) => number + ' ' + (number === 1 ? one : more || one + 's');
const capital = text => text[0].toUpperCase() + text.slice(1);
const times = i => at(ia[i]) + ' to ' + at(due[i]);

/** How late a row is, or how soon it is due. */
function lateness(i) {
  if (late.has(i)) return 'late ' + length(D.now - due[i]);
  if (due[i] === D.now) return 'due now';
  return due[i] > D.now && due[i] - D.now < DAY / 2 ? 'in ' + length(due[i] - D.now) : '';
}

const ofRoot = i => WORD[state(i)] + (late.has(i) ? ', ' + lateness(i) : '');

/** What waits for a row, as parts: texts, and numbers for rows. */
function whoWaits(i) {
  const rows = behind(i);
  if (rows.length < 2) return rows.length ? [rows[0], ' waits for it'] : [];
  return [(rows.length >= MOST_WALKED - 1 ? MOST_WALKED + ' or more' : rows.length) + ' wait for it'];
}

const waiters = i => whoWaits(i).flatMap((part, n) => n ? [part] : ['; ', part]);

/** Why a row has its state, as parts. */
function why(i) {
  const waits = openBefore(i);
  if (waits.length && isOpen(i)) {
    const [first, ...others] = waiting(i, waits);
    return [(state(i) === 'F' ? 'arrives ' + soon(ia[i]) + '; ' : '') + first, ...others];
  }
  if (state(i) === 'R') return ['arrived ' + soon(ia[i]) + ', nothing is in its way', ...waiters(i)];
  if (state(i) === 'F') return ['arrives ' + soon(ia[i]) + ', nothing is in its way', ...waiters(i)];
  return [WORD[state(i)] + (isOpen(i) ? ', arrived ' + soon(ia[i]) : ''), ...(isOpen(i) ? waiters(i) : [])];
}

function waiting(i, waits) {
  const root = rootOf.get(i), parts = ['waits for ', waits[0]];
  if (waits.length > 1) parts.push(' and ' + (waits.length - 1) + ' more');
  if (root === undefined) return parts;
  if (waits.length === 1 && root === waits[0]) return [...parts, ' (' + ofRoot(root) + ')'];
  const others = otherRoots(i), more = others < 0 ? ' and many others' : others ? ' and ' + many(others, 'other') : '';
  return [...parts, '; root: ', root, ' (' + ofRoot(root) + ')' + more];
}

const asText = parts => parts.map(part => typeof part === 'number' ? rowName(part) : part).join('');
const asNodes = parts => parts.map(part => typeof part === 'number' ? reference(part) : part);
const reference = i => h('button', { class: 'in', 'data-i': i, title: times(i), on: () => choose(i) },
  rowName(i));

/** The words of the search, as texts quote them. */
const findText = () => view.find.map(word => '“' + word + '”').join(' or ');

/** The text at the end of a list that is cut, or nothing. */
const rest = (number, shown, what) => number > shown ? 'and ' + (number - shown) + ' more' + (what || '') : '';
const restLine = (number, shown, what) => number > shown ? h('li', { class: 'quiet' }, rest(number, shown, what)) : '';

/** An element; `on` is what a click does, `css` its style, and an attribute without a value isn't set. */
function h(tag, attributes, ...inner) {
  return made(document.createElement(tag), attributes, inner);
}

/** An element of a picture. */
function s(tag, attributes, ...inner) {
  return made(document.createElementNS('http://www.w3.org/2000/svg', tag), attributes, inner);
}

function made(element, attributes, inner) {
  for (const [key, value] of Object.entries(attributes || {})) {
    if (key === 'on') element.addEventListener('click', value);
    else if (key === 'css') element.style.cssText = value;
    else if (value !== undefined && value !== null) element.setAttribute(key, value);
  }
  element.append(...inner.flat(3).filter(x => x !== null && x !== undefined && x !== ''));
  return element;
}

const fill = (selector, ...inner) => $(selector).replaceChildren(...inner.flat(3).filter(Boolean));
const sign = key => h('span', { class: 'b ' + key, 'aria-hidden': 'true' }, LETTER[key] || key);
const badge = i => sign(state(i));
const tone = i => state(i) === 'E' ? 'is-error' : late.has(i) ? 'is-late' : '';

/** Marks the button of a row among those that a selector finds. */
function markCurrent(selector, i) {
  document.querySelectorAll(selector).forEach(button => {
    if (+button.dataset.i === i) button.setAttribute('aria-current', 'true');
    else button.removeAttribute('aria-current');
  });
}

const say = text => { $('#say').textContent = text; };
