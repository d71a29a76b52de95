// The buttons of the chosen row, by what its status allows, and the desk's answers.
// by serial: the answer that is shown, the act in progress, its key, and an act that must be pressed again
const answers = new Map();

const statusOfRow = i => 'RBF'.includes(state(i)) ? 'W' : state(i);
const isInPlan = i => 'WSEC'.includes(statusOfRow(i));

/** Whether a row's status allows an act; what waits for another can't be started. */
const allows = (act, i) => desk.acts[act].from.includes(statusOfRow(i)) && !(act === 'start' && openBefore(i).length);

const streamName = i => '--app ' + name(i) + ' --ia ' + isoDay(dayOf(ia[i])) + '/' + clock(ia[i]);

// in the order of the buttons: what can be undone comes first, and for what is in error that is Reset
const IN_ORDER = ['reset', 'start', 'fail', 'complete', 'delete'];

/** What is kept of a row; not a question whether it is to be done if the row's status is another by now. */
function keptOf(i) {
  const kept = answers.get(serial[i]) || {};
  return kept.sure && kept.of !== statusOfRow(i) ? {} : kept;
}

// Complete of a row that waits, with all that it waits for: the desk first shows what that does
const CHAIN = { verb: 'complete', more: { chain: true } };
const isOfChain = (i, act) => act === 'complete' && statusOfRow(i) === 'W';

/** The text of a button: of Complete for a row that waits, with how many rows it waits for. */
function actText(i, act, isSure) {
  const number = isOfChain(i, act) ? [...walk(i, before)].filter(isOpen).length : 0;
  return capital(act) + (number ? ' with ' + number + ' before it' : '') + (isSure ? ': sure?' : '');
}

/** The button of an act. Each keeps its place, whether it is allowed or not, so that a second press hits no other. */
function actButton(i, act, kept) {
  const isSure = kept.sure === act, isOff = kept.busy || !allows(act, i) && !isOfChain(i, act);
  return tool('act ' + act, actText(i, act, isSure), event => press(i, act, event), {
    class: isSure ? 'sure' : '', disabled: isOff ? '' : undefined, 'data-act': act, 'data-i': i });
}

/** A row's buttons: first those of what can be undone, and apart from them the others. */
function actsOf(i) {
  if (!may('operate') || !isInPlan(i)) return '';
  for (const [number, one] of answers) if (one.sure && number !== serial[i]) answers.delete(number);
  const kept = keptOf(i), buttons = isFinal => IN_ORDER.filter(act => desk.acts[act].final === isFinal)
    .map(act => actButton(i, act, kept));
  return h('div', { class: 'acts', role: 'group', 'aria-label': 'Actions', tabindex: -1, id: 'acts' },
    h('p', { class: 'answer ' + (kept.look || ''), tabindex: -1, id: 'answer' }, kept.text || []),
    h('div', { class: 'buttons' }, buttons(false)),
    h('div', { class: 'buttons final', role: 'group', 'aria-labelledby': 'final' },
      h('span', { id: 'final' }, 'Can’t be undone'), buttons(true)));
}
inCard.push(actsOf);

/** Shows and announces an answer in the card of a row; the focus goes there from the button that was pressed. */
function answerOf(number, kept) {
  answers.set(number, kept);
  const isFocused = $('.acts')?.contains(document.activeElement);
  if (serial[view.pick] === number && view.app < 0) {
    redraw(['#card'], showCard);
    if (isFocused || document.activeElement === document.body) $('#answer')?.focus({ preventScroll: true });
  }
  if (kept.text) say(rowOfSerial(number) === undefined ? plainText(kept.text)
    : rowName(rowOfSerial(number)) + ': ' + plainText(kept.text));
}

const WARNINGS = { complete: { E: 'Its job ended in error, and this says all the same that its work is done. ' } };

/** What is said before an act that can't be undone: what it means, and who waits for the row. */
function warning(i, act) {
  const told = WARNINGS[act]?.[statusOfRow(i)] ?? '', waits = asText(whoWaits(i)) || 'Nothing waits for it';
  return [waits + '. ' + told + 'It can’t be undone: press “' + capital(act) + '” once more to do it.'];
}

/** A press of a button. What can't be undone needs a second press, which the second click of a double one isn't. */
async function press(i, act, event) {
  const number = serial[i], kept = keptOf(i), text = 'cp-' + act + ' ' + streamName(i);
  if (kept.busy) return;
  if (isOfChain(i, act)) return lookAt(i, CHAIN);
  if (desk.acts[act].final && kept.open !== text) {
    if (kept.sure !== act) {
      return answerOf(number, { sure: act, of: statusOfRow(i), look: 'is-late', text: warning(i, act) });
    }
    if (event.detail > 1) return;
  }
  const key = kept.open === text ? kept.key : newKey();
  ownKeys.add(key);
  answerOf(number, { busy: true, text: ['Sent, waiting for the answer …'] });
  const found = await ask(text, key);
  const reply = found.lines?.[0].reply ?? '';
  if (found.wrong) answerOf(number, { text: [found.wrong], look: 'is-error', open: found.isOpen ? text : '', key });
  else if (reply.startsWith('ok')) answerOf(number, { text: [desk.acts[act].done + ' (' + reply + ').'], look: 'is-done' });
  else answerOf(number, { text: refusal(reply), look: 'is-error' });
}
