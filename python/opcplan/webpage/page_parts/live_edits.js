// Changes of definitions from the card of an application: first its days before and after are shown, as a year's
// calendar, and a second press does it in the state of that preview. What decides an edit is the desk (POST /edits).
const MOST_EDITED = 400;
const CHANGED_MEANWHILE = 'Nothing was done: somebody has changed the definitions since you looked';
/** Whose card has it, what is edited, what was typed in place of what is defined, and what the edit would do. */
let edit = { app: null };

function editOf(k) {
  const name = D.apps[k][0];
  if (edit.app !== name) edit = { app: name, what: 'day', typed: {}, isOpen: false, shown: null };
  return edit;
}

const calendarOf = k => D.calendars[D.apps[k][2]][0];

/** A run cycle's fields, in the words of an edit. */
const cycleFields = ([, kind, period, rule, offsets, time, days, minute, inEffect, outEffect]) => ({
  type: kind, period, rule, offsets: offsets.join(' '), ia: clock(time), 'deadline-day': String(days ?? ''),
  'deadline-time': minute === null ? '' : clock(minute), 'in-effect': isoDay(inEffect),
  'out-of-effect': outEffect === null ? '' : isoDay(outEffect) });
const NEW_CYCLE = { type: 'N', period: '', rule: 'E', offsets: '1', ia: '', 'deadline-day': '0', 'deadline-time': '',
  'in-effect': '', 'out-of-effect': '' };

/** What may be edited: the key, and its text. */
function editables(k) {
  const cycles = D.apps[k][3].map(([title]) => ['cycle ' + title, 'Run cycle ' + title]);
  return [['day', 'Calendar ' + calendarOf(k) + ': days'], ...cycles, ['new', 'A new run cycle'],
    ['application', 'The application: status, calendar']];
}

/** A labelled field that keeps what is typed when the card is drawn again. */
function editField(name, label, value, more) {
  const input = h('input', { autocomplete: 'off', spellcheck: 'false', ...more, value: edit.typed[name] ?? value,
    'data-key': 'edit ' + name });
  input.addEventListener('input', () => {
    edit.typed[name] = input.value;
    input.setAttribute('value', input.value);
  });
  return h('label', {}, h('span', {}, label), input);
}

function editChoice(name, label, value, options) {
  const now = edit.typed[name] ?? value;
  const choice = h('select', { 'data-key': 'edit ' + name }, options.map(([key, text]) =>
    h('option', { value: key, selected: key === now ? '' : undefined }, text)));
  choice.addEventListener('change', () => {
    edit.typed[name] = choice.value;
    [...choice.children].forEach(one => { one.selected = one.value === choice.value; });
  });
  return h('label', {}, h('span', {}, label), choice);
}

const RULE_TEXTS = Object.entries(RULES).map(([rule, text]) => [rule, rule + ': ' + text]);
const asTime = text => text.replace('.', ':');

function cycleForm(k, fields) {
  const periods = [...new Set(D.apps.flatMap(one => one[3].map(cycle => cycle[2])))].sort();
  return [
    edit.what === 'new' ? editField('name', 'Name', '', { maxlength: 8 }) : '',
    editChoice('type', 'Type', fields.type, [['N', 'names days'], ['X', 'takes days away']]),
    editField('period', 'Period', fields.period, { list: 'periods', maxlength: 8 }),
    h('datalist', { id: 'periods' }, periods.map(one => h('option', { value: one }))),
    editChoice('rule', 'Free-day rule', fields.rule, RULE_TEXTS),
    editField('offsets', 'Offsets', fields.offsets),
    editField('ia', 'Input arrival', asTime(fields.ia), { type: 'time' }),
    editField('deadline-time', 'Deadline', asTime(fields['deadline-time']), { type: 'time' }),
    editField('deadline-day', 'Days after the input arrival', fields['deadline-day'],
      { type: 'number', min: 0, max: 99 }),
    editField('in-effect', 'In effect from', fields['in-effect'], { type: 'date' }),
    editField('out-of-effect', 'Out of effect from', fields['out-of-effect'], { type: 'date' }),
  ];
}

function dayForm() {
  return [
    editField('first', 'Day', '', { type: 'date' }),
    editField('last', 'To (if several days)', '', { type: 'date' }),
    editChoice('status', 'Is', 'free', [['free', 'free'], ['work', 'a work day'], ['unlist', 'as its weekday']]),
  ];
}

const statusNow = k => D.apps[k][1] === 1 ? 'active' : 'pending';

function applicationForm(k) {
  const names = D.calendars.map(([name]) => [name, name]);
  return [editChoice('active', 'Status', statusNow(k), [['active', 'active'], ['pending', 'pending: not planned']]),
    editChoice('calendar', 'Calendar', calendarOf(k), names)];
}

const cycleOf = k => D.apps[k][3].find(([title]) => 'cycle ' + title === edit.what);

function editForm(k) {
  if (edit.what === 'day') return dayForm();
  if (edit.what === 'application') return applicationForm(k);
  return cycleForm(k, edit.what === 'new' ? NEW_CYCLE : cycleFields(cycleOf(k)));
}

/** What is typed into a field, as an edit has it. */
const fieldWord = (name, text) => name === 'offsets' ? text.split(/[\s,]+/).filter(Boolean).join(' ')
  : text.replace(/^(\d\d):(\d\d).*$/, '$1.$2');

/** The words of the edit that is typed, as `./plan edit` has them; or what is wrong. */
function editWords(k) {
  const typed = name => (edit.typed[name] ?? '').trim();
  if (edit.what === 'day') {
    const [first, last] = [typed('first'), typed('last')];
    if (!first) return { wrong: 'Choose a day.' };
    return { words: ['calendar', calendarOf(k), last && last !== first ? first + '..' + last : first,
      typed('status') || 'free'] };
  }
  if (edit.what === 'application') return applicationWords(k, typed);
  const isNew = edit.what === 'new', was = isNew ? NEW_CYCLE : cycleFields(cycleOf(k)), fields = [];
  for (const [name, value] of Object.entries(was)) {
    const now = name in edit.typed ? fieldWord(name, typed(name)) : value;
    if (isNew ? now : now !== value) fields.push(name + '=' + now);
  }
  if (isNew && !typed('name')) return { wrong: 'Name the run cycle.' };
  if (!fields.length) return { wrong: 'Nothing is changed yet.' };
  return { words: ['run-cycle', edit.app, ...isNew ? [typed('name'), 'new'] : [edit.what.slice(6)], ...fields] };
}

function applicationWords(k, typed) {
  const [status, calendar] = [typed('active') || statusNow(k), typed('calendar') || calendarOf(k)];
  const words = [...status === statusNow(k) ? [] : [status],
    ...calendar === calendarOf(k) ? [] : ['calendar=' + calendar]];
  return words.length ? { words: ['application', edit.app, ...words] } : { wrong: 'Nothing is changed yet.' };
}

/** The part of an application's card in which its definitions are changed. */
function editsOf(k) {
  if (!may('plan') || D.apps[k][1] < 0) return '';
  const { shown } = editOf(k);
  if (edit.what.startsWith('cycle ') && !cycleOf(k)) Object.assign(edit, { what: 'day', typed: {} });
  const what = h('select', { 'data-key': 'edit what' }, editables(k).map(([key, text]) =>
    h('option', { value: key, selected: key === edit.what ? '' : undefined }, text)));
  what.addEventListener('change', () => {
    Object.assign(edit, { what: what.value, typed: {}, shown: null });
    redraw(['#card'], showCard);
    $('[data-key="edit what"]')?.focus({ preventScroll: true });
  });
  const isOff = shown?.busy ? '' : undefined, isCycle = edit.what.startsWith('cycle ');
  const part = h('details', { class: 'edits', 'data-key': 'edits', open: edit.isOpen ? '' : undefined },
    h('summary', {}, 'Change definitions'),
    h('div', { class: 'fields' }, h('label', {}, h('span', {}, 'What'), what), editForm(k)),
    h('div', { class: 'buttons' }, tool('edit look', 'Show what it would do', () => lookAtTyped(k), { disabled: isOff }),
      isCycle ? tool('edit remove', 'Show it without this run cycle',
        () => lookAtEdit(['run-cycle', edit.app, edit.what.slice(6), 'remove']), { disabled: isOff }) : ''),
    shown ? editPreview(shown) : '');
  part.addEventListener('toggle', () => { edit.isOpen = part.open; });
  return part;
}
inAppCard.push(editsOf);

/** What an edit would do, with the button that does it; or what came of it. */
function editPreview(shown) {
  const { made, after } = shown, isOff = shown.busy ? '' : undefined;
  return h('div', { class: 'preview', tabindex: -1, id: 'edit-shown' },
    shown.text ? h('p', { class: 'answer ' + (shown.look || '') }, shown.text) : '',
    made ? [h('ul', {}, made.sentences.map(one => h('li', {}, one.replaceAll('`', '')))), editDays(shown),
      tool('edit do', 'Do it as shown', doEdit, { class: 'do', disabled: isOff })] : '',
    after?.modify ? h('p', {}, tool('edit modify', 'Show what ' + after.modify + ' would do',
      () => planFor(after.modify), { class: 'do' })) : '',
    after?.back ? h('p', {}, tool('edit back', 'Show how to take it back', () => lookAtEdit(after.back),
      { class: 'do', disabled: isOff })) : '');
}

/** The days of the applications that an edit concerns, one application at a time. */
function editDays(shown) {
  const { apps, first, last } = shown.made, chosen = name => apps.find(one => one.app === name);
  if (!apps.length) return h('p', { class: 'quiet' }, 'No application runs on other days.');
  const one = chosen(shown.of) ?? chosen(edit.app) ?? apps[0], [begin, end] = [dayNumber(first), dayNumber(last)];
  const which = h('select', { 'data-key': 'edit of' }, apps.slice(0, MOST_EDITED).map(of =>
    h('option', { value: of.app, selected: of.app === one.app ? '' : undefined },
      of.app + ' (−' + of.goes + ' +' + of.comes + ' ~' + of.other + ')')));
  which.addEventListener('change', () => {
    shown.of = which.value;
    redraw(['#card'], showCard);
    $('[data-key="edit of"]')?.focus({ preventScroll: true });
    say(shown.of + ': ' + daysText(chosen(shown.of)));
  });
  const go = months => () => lookAtEdit(shown.words, monthFrom(begin, months), shown.of);
  const isOff = shown.busy ? '' : undefined;
  return [
    apps.length > 1 ? h('label', {}, h('span', {}, 'Days of ' + many(apps.length, 'application') + ': '), which,
      restText(apps.length)) : h('p', {}, 'Days of ' + one.app),
    one.obstacle ? h('p', { class: 'is-late' }, 'Nothing of it is planned then: ' + one.obstacle + '.') : '',
    yearLegend(one), yearOf(one, begin, end),
    h('div', { class: 'buttons' }, tool('edit year back', 'The year before', go(-12), { disabled: isOff }),
      tool('edit year on', 'The year after', go(12), { disabled: isOff })),
    yearDifferences(one),
  ];
}

const restText = number => number > MOST_EDITED ? h('span', { class: 'quiet' }, rest(number, MOST_EDITED)) : '';

/** The first day of the month that is so many months from the month of a day. */
function monthFrom(day, months) {
  const date = dateOf(day * DAY);
  return isoDay(Date.UTC(date.getUTCFullYear(), date.getUTCMonth() + months, 1) / 86400000);
}

/** Shows and announces it; the focus goes there from the button that was pressed. */
function tellEdit(own, shown) {
  const isFocused = $('.edits')?.contains(document.activeElement);
  own.shown = shown;
  if (own === edit && view.app >= 0 && D.apps[view.app][0] === own.app) {
    redraw(['#card'], showCard);
    if (isFocused || document.activeElement === document.body) $('#edit-shown')?.focus({ preventScroll: true });
  }
  const one = shown.made?.apps.find(({ app: name }) => name === own.app) ?? shown.made?.apps[0];
  say([shown.text, one && !shown.busy ? one.app + ': ' + daysText(one) + '.' : ''].filter(Boolean).join(' '));
}

/** The desk's answer to an edit: its `edit`, `why_not`, `answers` and so on, or what `ask` has in `wrong`. */
async function askEdit(asked, key, tag) {
  const found = await sendTo('/edits', JSON.stringify(asked), { 'Content-Type': 'application/json' }, key, tag);
  return found.told === undefined ? found : { ...JSON.parse(found.told), status: found.status, tag: found.tag };
}

/** What the desk would do, with a text before it, or in words why there is nothing. */
async function lookedUpEdit(words, from, text, look) {
  const found = await askEdit({ edit: words, ...from ? { from } : {} }), why = found.wrong || found.why_not;
  if (why) return { words, from, text: (look ? CHANGED_MEANWHILE + '. ' : '') + capital(why), look: 'is-error' };
  return { words, from, text, look, made: found.edit, tag: found.tag, key: 'act-' + newKey() };
}

/** Where the year begins that is shown first: with the days themselves if they are beyond the usual one. */
function usualFrom(words) {
  const [, , entry] = words, day = words[0] === 'calendar' ? dayNumber(entry.slice(0, 10)) : NaN;
  const begin = dayOf(D.plan.created ? D.plan.end : D.now);
  const [first, year] = [0, 12].map(n => dayNumber(monthFrom(begin, n)));
  return day < first || day >= year ? monthFrom(day, 0) : undefined;
}

function lookAtTyped(k) {
  const { words, wrong } = editWords(k);
  if (wrong) return tellEdit(edit, { text: wrong, look: 'is-error' });
  return lookAtEdit(words);
}

/** The first press. */
async function lookAtEdit(words, from = usualFrom(words), of = undefined) {
  const own = edit;
  if (own.shown?.busy) return;
  tellEdit(own, { words, busy: true, text: WAITING });
  tellEdit(own, { ...await lookedUpEdit(words, from, 'Nothing is done yet.', ''), of });
}

const daysOfEdit = made => made.apps.map(one => one.app + one.signs + JSON.stringify(one.differences)).join('\n');
const sameEdit = (one, other) => one.stream === other.stream && daysOfEdit(one) === daysOfEdit(other);

/** The second press: does it in the state of the preview, or in a later one in which it would do the same. */
async function doEdit(event) {
  const own = edit, asked = { ...own.shown };
  if (asked.busy || event.detail > 1) return;
  asked.made.statements.forEach((_, n) => ownKeys.add(asked.key + (n ? '#' + n : '')));
  tellEdit(own, { ...asked, busy: true, text: WAITING, look: '' });
  for (let looks = 0; looks < MOST_LOOKS; looks++) {
    const found = await askEdit({ stream: asked.made.stream }, asked.key, asked.tag);
    if (found.status !== 412) return tellEdit(own, editDone(asked, found));
    const again = await lookedUpEdit(asked.words, asked.from, CHANGED_MEANWHILE +
      ', and this would now do something else. Look at it, and press once more.', 'is-late');
    if (!again.made || !sameEdit(asked.made, again.made)) return tellEdit(own, { ...again, of: asked.of });
    asked.tag = again.tag;
  }
  tellEdit(own, { ...asked, text: 'Nothing was done: the plan keeps changing. Press once more.', look: 'is-late' });
}

/** What came of an edit. One without an answer stays, so that the next press sends it under the same key. */
function editDone(asked, found) {
  const tell = (text, look, after) => ({ words: asked.words, text, look, after });
  if (found.wrong && found.isOpen) return { ...asked, text: found.wrong, look: 'is-error' };
  if (found.wrong) return tell(found.wrong, 'is-error');
  const refused = found.answers.find(one => !one.reply.startsWith('ok')), { made } = asked;
  if (refused) return tell('Refused: ' + refused.statement + ' (' + refused.reply + ').', 'is-error');
  if (!found.is_whole) {
    return tell('Somebody else changed the plan in between: only ' + found.answers.length + ' of ' +
      made.statements.length + ' statements did it. Look at the definitions again.', 'is-late');
  }
  edit.typed = {};
  return tell('Done: ' + many(found.answers.length, 'statement') + '.' + (made.modify
    ? ' It isn’t in the long-term plan yet: ' + made.modify + ' puts it there.' : ''), 'is-done',
  { modify: made.modify, back: made.edit_back });
}

/** Shows the trial of the statement that takes an edit into the long-term plan. */
function planFor(modify) {
  const [done, , name] = modify.split(' ');
  $('#work').value = String(WORKS.findIndex(one => one.done === done));
  chooseWork();
  if (name) field('app').value = name;
  $('#planning').scrollIntoView();
  return lookFirst();
}
