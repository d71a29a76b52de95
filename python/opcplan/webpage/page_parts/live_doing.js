// An act of the desk: shown first, and done by a second press. If it stops half way, because somebody else changed the
// plan or a statement was refused, it says how far it came, and offers what is left, shown again as of then. An act has
// parts, one for each row that it is about. A statement that was answered is never sent under another key, and a part
// of which a statement was or would be refused goes no further: what deletes a row may follow what makes another one.
const WAITING = 'Sent, waiting for the answer …', MOST_NAMED = 5;
const isOk = reply => reply.startsWith('ok');

/** The statements without an answer, of parts that go on: each by its part and its place there. */
const openOf = parts => parts.flatMap((part, p) => part.closed ? [] : part.texts.map((_, t) => [p, t])
  .filter(([, t]) => part.replies[t] === undefined));

/** An act as it is sent: its parts with their replies, its statements in order, their stream, and its key. */
function progressOf(act) {
  const parts = act.parts.map(part => ({ ...part, replies: [], closed: part.why_not }));
  return { parts, order: openOf(parts), stream: act.stream, key: 'act-' + newKey(), done: 0, isBegun: false };
}

/** Why a statement is refused, in a few words. */
const whyRefused = reply => plainText(meaning(reply) || []).replace(/^: /, '') || reply;

/** Notes the answers to the first statements of an act. */
function noteAnswers({ parts, order }, answers) {
  answers.forEach(({ reply }, n) => {
    const part = parts[order[n][0]];
    part.replies[order[n][1]] = reply;
    if (!isOk(reply)) part.closed = whyRefused(reply) + ' (' + reply + ')';
  });
}

/** What is left of an act: the same stream under the same key if that goes on with it, else the rest under another. */
function restOf(progress) {
  const { parts, order } = progress, left = openOf(parts), done = order.length - left.length;
  const isAnswered = order.slice(0, done).every(([p, t]) => isOk(parts[p].replies[t] ?? ''));
  const isSame = isAnswered && left.every(([p, t], n) => order[done + n][0] === p && order[done + n][1] === t);
  if (isSame) return { ...progress, done, isBegun: true };
  const stream = left.map(([p, t]) => parts[p].texts[t]).join('');
  return { parts, order: left, stream, key: 'act-' + newKey(), done: 0, isBegun: true };
}

/** The row of a part, by name and arrival. */
function partName({ of, row }) {
  const i = row ? rowOfSerial(row.serial) : undefined;
  return i !== undefined ? rowName(i) : row ? row.app + ' ' + row.ia.replace('/', ' ') : of || 'it';
}

const named = parts => parts.slice(0, MOST_NAMED).map(partName).join(', ') +
  (parts.length > MOST_NAMED ? ' and ' + (parts.length - MOST_NAMED) + ' more' : '');
const doneIn = part => part.replies.filter(isOk).length;
const isDone = part => part.texts.length > 0 && doneIn(part) === part.texts.length;
const isAre = number => number === 1 ? ' is' : ' are';

/** How far an act came, in sentences. */
function howFar(parts) {
  const of = parts.filter(part => part.texts.length), all = of.filter(isDone), told = [];
  const left = of.filter(part => !isDone(part) && !part.closed && !doneIn(part));
  if (of.length > 1) {
    told.push(all.length + ' of ' + of.length + ' runs' + isAre(all.length) + ' done' +
      (all.length ? ': ' + named(all) : ''));
    if (left.length) told.push('Left: ' + named(left));
  }
  for (const part of of) {
    const number = doneIn(part), isHalf = number && !isDone(part);
    if (of.length === 1 || isHalf) {
      told.push((of.length > 1 ? 'Of ' + partName(part) + ' ' : '') + number + ' of ' +
        many(part.texts.length, 'statement') + isAre(number) + ' done' +
        (isHalf ? ': ' + lineOf(part.texts[number - 1]) + ' was the last' : ''));
    }
    if (part.closed) told.push('Refused: ' + (of.length > 1 ? partName(part) + ': ' : '') + part.closed);
  }
  return told.join('. ') + '.';
}

const lineOf = text => text.split('\n')[0];

/** What is said once all is answered. */
function doneText(parts) {
  const count = parts.reduce((sum, part) => sum + doneIn(part), 0), of = parts.filter(part => part.texts.length);
  if (!of.every(isDone)) return howFar(parts);
  return 'Done: ' + (of.length > 1 ? of.length + ' runs, ' : '') + many(count, 'statement') + '.';
}

/** What would be done, with a text before it, or in words why there is nothing; `own` says where it is shown. */
async function lookedUp(own, wanted, text = 'Nothing is done yet.', look = '') {
  const found = await askAct(wanted), why = found.wrong || found.why_not;
  if (why) return { own, wanted, text: capital(why), look: 'is-error' };
  if (!found.act) return { own, wanted, text: found.found.lines.join(' '), look: 'is-error' };
  return { own, wanted, text, look, act: found.act, tag: found.tag, progress: progressOf(found.act) };
}

/** What is left of an act that was begun, as of now, with how far it came; parts that can't go on are left out. */
async function lookedAtRest({ own, wanted, progress }) {
  for (let rest = restOf(progress); ; rest = restOf(rest)) {
    const { parts, order, done } = rest, tell = more => ({ own, wanted, look: 'is-late', ...more });
    if (!openOf(parts).length) return tell({ text: 'The plan has changed in between. ' + howFar(parts) });
    const found = await askAct({ stream: rest.stream, done }), why = found.wrong || found.why_not;
    const text = 'The plan has changed in between. ' + howFar(parts);
    if (why) return tell({ progress: rest, isLeft: true, text: text + ' What is left can’t be shown: ' + why });
    found.act.replies.forEach((reply, n) => {
      const part = parts[order[done + n][0]];
      if (!isOk(reply)) part.closed ||= 'what is left of it would be refused now, ' + whyRefused(reply);
    });
    if (found.act.replies.every(isOk)) return tell({ act: found.act, tag: found.tag, progress: rest, text });
  }
}

const sameAct = (one, other) => one.stream === other.stream && one.lines.join('\n') === other.lines.join('\n');

/** The desk's answer to an act. If the desk ended half way, the same request under its key is answered as far as it came,
 *  and the rest goes on in the state that this left: so nobody else changed the plan in between. */
async function answerTo({ stream, key, order, done }, tag) {
  let found = await askAct({ stream }, key, tag);
  for (let known = done; isPartOf(order, found) && found.answers.length > known;) {
    known = found.answers.length;
    const more = await askAct({ stream }, key, found.tag);
    if (!more.wrong || more.isOpen) found = more;
  }
  return found;
}

const isPartOf = (order, { wrong, answers }) => !wrong && answers.length < order.length &&
  answers.every(({ reply }) => isOk(reply));

/** Does what is shown in the state of its preview, or in a later one in which it would do the same; `tell` shows. */
async function doAct(asked, tell) {
  const { act, progress, own, wanted } = asked;
  progress.order.forEach((_, n) => ownKeys.add(progress.key + (n ? '#' + n : '')));
  tell({ ...asked, busy: true, sure: false, text: WAITING, look: '' });
  let { tag } = asked;
  for (let looks = 0; looks < MOST_LOOKS; looks++) {
    const found = await answerTo(progress, tag);
    if (found.wrong && found.isOpen) return tell({ ...asked, tag, sure: false, text: found.wrong, look: 'is-error' });
    if (found.wrong && found.status !== 412) {
      const text = found.wrong + (progress.isBegun ? ' ' + howFar(progress.parts) : '');
      return tell({ own, wanted, progress, isLeft: progress.isBegun, text, look: 'is-error' });
    }
    if (!found.wrong) noteAnswers(progress, found.answers);
    if (!openOf(progress.parts).length) {
      const isWhole = progress.parts.every(part => !part.texts.length || isDone(part));
      return tell({ own, wanted, text: doneText(progress.parts), look: isWhole ? 'is-done' : 'is-error',
        isOver: true });
    }
    if (!found.wrong && found.answers.length > progress.done) return tell(await lookedAtRest(asked));
    const again = progress.isBegun ? await lookedAtRest(asked) : await lookedUp(own, wanted,
      'Nothing was done: the plan has changed, and it would now do something else. Look at it, and press once more.',
      'is-late');
    if (!again.act && !progress.isBegun) again.text = 'Nothing was done: the plan has changed. ' + again.text;
    if (!again.act || !sameAct(act, again.act)) return tell(again);
    tag = again.tag;
  }
  return tell({ ...asked, tag, sure: false, look: 'is-late',
    text: 'Nothing was done: the plan keeps changing. Press once more.' });
}

/** An act that is shown, with the buttons that do it, look again at what is left, or drop it; or what came of it. */
function shownAct(shown, { id, onDo, onLook, onDrop }) {
  const { act, progress } = shown, isLess = act && !may(act.role), off = shown.busy || isLess ? '' : undefined;
  const isBegun = progress?.isBegun, text = shown.sure ? 'It can’t be undone: do it all the same'
    : isBegun ? 'Go on as shown' : 'Do it as shown';
  return h('div', { class: 'preview', tabindex: -1, id },
    shown.text ? h('p', { class: 'answer ' + (shown.look || '') }, shown.text) : '',
    act ? [h('ul', {}, act.lines.map(line => h('li', {}, line.trim().replaceAll('`', '')))),
      isLess ? h('p', { class: 'quiet' }, 'Only who may ' + act.role + ' can do it.') : '',
      tool('do it', text, onDo, { class: act.inverse ? 'do' : 'do sure', disabled: off })] : '',
    shown.isLeft ? tool('look again', 'Look at what is left', onLook, { class: 'do' }) : '',
    isBegun && !shown.busy ? tool('drop', 'Leave the rest', onDrop, { class: 'do' }) : '');
}
