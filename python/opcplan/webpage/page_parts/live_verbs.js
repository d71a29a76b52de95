// What is wanted of the chosen row or application, as verbs of the desk: first it is shown what it would do, and a
// second press does it.
const VERBS = [
  { text: 'Rerun', verb: 'rerun', of: 'ECH' },
  { text: 'Rerun with followers', verb: 'rerun', of: 'ECH', more: { followers: true } },
  { text: 'Cancel', verb: 'cancel', of: 'WEL' },
  { text: 'Undo my last change', verb: 'undo', of: 'WSECHLDowp' },
  { text: 'Move to', verb: 'move', of: 'WEL' },
];
let looked = null;  // what is shown: of which row or application, what is wanted, and the act that would be done
const typed = new Map();  // by its key: what is typed in a field, which is drawn again when others change something

/** A field that keeps what is typed when it is drawn again. */
function typedField(key, type, label, value = '') {
  const input = h('input', { type, value: typed.get(key) ?? value, 'data-key': key, 'aria-label': label });
  input.addEventListener('input', () => {
    typed.set(key, input.value);
    input.setAttribute('value', input.value);
  });
  return input;
}

/** The fields of a moment and, if one likes, of a deadline. */
function momentFields(key, day, time, what) {
  const field = (name, type, label, value) => typedField(key + ' ' + name, type, label, value);
  return h('span', { class: 'to' }, field('day', 'date', 'Day to ' + what, day),
    field('time', 'time', 'Time to ' + what, time), h('span', { class: 'quiet' }, 'due'),
    field('due day', 'date', 'Day of the deadline, if it isn’t the first such time after'),
    field('due time', 'time', 'Time of the deadline, if it is to be another'));
}

const timeWord = text => text.slice(0, 5).replace(':', '.');

/** A field that is drawn. */
const inputOf = key => $('input[data-key="' + CSS.escape(key) + '"]');

/** What fields say: `to` (a day, a minute, a moment, or nothing), and `due`; or what is wrong with them. */
function typedMoments(key) {
  const [day, time, dueDay, dueTime] = ['day', 'time', 'due day', 'due time']
    .map(name => inputOf(key + ' ' + name).value);
  if (dueDay && !dueTime) return { wrong: 'Choose the time of the deadline too.' };
  const found = { to: [day, timeWord(time)].filter(Boolean).join('/') };
  if (dueTime) found.due = [dueDay, timeWord(dueTime)].filter(Boolean).join('/');
  return found;
}

const verbsFor = i => VERBS.filter(one => one.of.includes(statusOfRow(i)));

/** Whose card is open: the serial of a row, or an application. */
const cardOwner = () => view.app >= 0 ? 'app ' + D.apps[view.app][0] : serial[view.pick];

/** A row's verbs, and what the last one that was pressed would do. */
function verbsOf(i) {
  if (!may('operate')) return '';
  const shown = looked?.own === serial[i] ? looked : null, key = 'move ' + serial[i];
  const buttons = verbsFor(i).map(one => tool('verb ' + one.text, one.text, () => lookAt(i, one), { 'data-i': i,
    'data-verb': one.verb, disabled: shown?.busy ? '' : undefined }));
  const isMovable = verbsFor(i).some(one => one.verb === 'move');
  return h('div', { class: 'verbs', role: 'group', 'aria-label': 'More actions, with a preview' },
    h('div', { class: 'buttons' }, buttons,
      isMovable ? momentFields(key, isoDay(dayOf(ia[i])), clock(ia[i]).replace('.', ':'), 'move to') : ''),
    shown ? previewOf(shown) : '');
}
inCard.push(verbsOf);

/** The card of an application: the fields and the button that add a run. */
function addOf(k) {
  if (!may('operate')) return '';
  const own = 'app ' + D.apps[k][0], shown = looked?.own === own ? looked : null;
  return h('div', { class: 'verbs', role: 'group', 'aria-label': 'Add a run' },
    h('div', { class: 'buttons' }, tool('add', 'Add a run at', () => lookAtAdded(k), { 'data-verb': 'add',
      disabled: shown?.busy ? '' : undefined }),
    momentFields('add ' + own, isoDay(dayOf(D.now)), '', 'add a run')), shown ? previewOf(shown) : '');
}
inAppCard.push(addOf);

/** What an act would do, with the button that does it; or what came of it. */
const previewOf = shown => shownAct(shown, { id: 'preview', onDo: doLooked, onLook: lookAtLeft,
  onDrop: () => tellLooked({ own: shown.own, text: 'What is left isn’t done.', look: 'is-late' }) });

/** Shows and announces it; the focus goes there from the button that was pressed. */
function tellLooked(shown) {
  const isFocused = $('.verbs')?.contains(document.activeElement) || $('.acts')?.contains(document.activeElement);
  looked = shown;
  if (shown.isOver) typed.clear();
  if (cardOwner() === shown.own) {
    redraw(['#card'], showCard);
    if (isFocused || document.activeElement === document.body) $('#preview')?.focus({ preventScroll: true });
  }
  say([shown.text, ...shown.act && !shown.busy ? shown.act.lines : []].filter(Boolean).join(' '));
}

/** What is wanted, as the desk is asked, or what is wrong with the fields. */
function wantedOf(i, one) {
  if (one.verb === 'undo') return { verb: 'undo' };
  const wanted = { verb: one.verb, of: String(serial[i]), ...one.more };
  if (one.verb !== 'move') return wanted;
  const found = typedMoments('move ' + serial[i]);
  return found.wrong || found.to.length === 16 ? { ...wanted, ...found } : { wrong: 'Choose day and time.' };
}

/** The first press. */
async function lookFor(own, wanted) {
  if (looked?.busy) return;
  if (wanted.wrong) return tellLooked({ own, text: wanted.wrong, look: 'is-error' });
  tellLooked({ own, wanted, busy: true, text: WAITING });
  tellLooked(await lookedUp(own, wanted));
}

const lookAt = (i, one) => lookFor(serial[i], wantedOf(i, one));

function lookAtAdded(k) {
  const own = 'app ' + D.apps[k][0], { to, due: deadline, wrong } = typedMoments('add ' + own);
  const isMoment = to?.length === 16, of = D.apps[k][0] + ' ' + to;
  return lookFor(own, wrong ? { wrong } : !isMoment ? { wrong: 'Choose day and time.' }
    : { verb: 'add', of, ...deadline ? { due: deadline } : {} });
}

/** The second press. */
async function doLooked(event) {
  if (!looked.busy && !(event.detail > 1)) await doAct(looked, tellLooked);
}

async function lookAtLeft() {
  const asked = looked;
  tellLooked({ ...asked, busy: true });
  tellLooked(await lookedAtRest(asked));
}
