// A desk as the page's acts see it: a few rows, the answers to POST /acts, keys, and somebody else who changes rows. What
// happens besides the page's own requests is a script of choices, so that a test goes through all of them.
const AFTER = { 'cp-start': ['W', 'S'], 'cp-complete': ['SE', 'C'], 'cp-fail': ['S', 'E'], 'cp-reset': ['E', 'W'],
  'cp-delete': ['WE', 'D'] };  // docs/rules/OCCURRENCES.md
const OTHERS = ['cp-start', 'cp-fail', 'cp-reset', 'cp-complete', 'cp-delete'];
const MAKERS = {
  complete: key => [`cp-start ${key}\n`, `cp-complete ${key}\n`],
  move: key => [`cp-add ${key}1\n`, `cp-delete ${key}\n`],
  reset: key => [`cp-reset ${key}\n`],
};

class ActingDesk {
  constructor(rows, script, refuses) {
    this.refuses = refuses;  // whether a statement may be refused for what no preview knows; the stream ends there
    this.rows = { ...rows };  // by key: the status
    this.keys = {};  // by the key of a statement: what it was answered, and the tag of the state after it
    this.away = 0;  // how many requests have no answer, because the desk ended
    this.ends = this.absences = this.changes = 0;  // how often it ended; was away for long; others changed a row
    this.tag = 1;
    this.accepted = [];  // the page's statements that were accepted, in order, with the key of each
    this.asked = 0;  // previews
    this.script = script;
    this.points = [];  // how many choices there were at each point
  }

  /** The next choice among so many, of which the first is that nothing happens. */
  choice(count) {
    this.points.push(count);
    return this.script[this.points.length - 1] ?? 0;
  }

  /** Does a statement on some rows: its reply. */
  static apply(rows, text) {
    const [name, key] = text.trim().split(' ');
    if (name === 'cp-add') {
      if ((rows[key] ?? 'D') !== 'D') return 'refused 27';
      rows[key] = 'W';
      return 'ok serial 900';
    }
    const [before_, after_] = AFTER[name];
    if ((rows[key] ?? 'D') === 'D') return 'refused 28';
    if (!before_.includes(rows[key])) return 'refused 29';
    rows[key] = after_;
    return 'ok serial 1 status ' + after_;
  }

  /** Somebody else may change a row. */
  others() {
    const ways = Object.keys(this.rows).flatMap(key => OTHERS.map(name => `${name} ${key}`))
      .filter(text => ActingDesk.apply({ ...this.rows }, text).startsWith('ok'));
    const chosen = this.choice(ways.length + 1);
    if (!chosen) return;
    ActingDesk.apply(this.rows, ways[chosen - 1]);
    this.tag++;
    this.changes++;
  }

  /** The desk may end after a statement, and come again at once, or only once the page doesn't send any more. */
  isEnded() {
    const chosen = this.choice(3);
    this.ends += chosen > 0;
    this.absences += chosen === 2;
    this.away = chosen === 2 ? RESTS.length : 0;
    return chosen > 0;
  }

  act(texts, parts) {
    const rows = { ...this.rows }, replies = [], lines = texts.map(text => {
      const key = text.trim().split(' ')[1], was = rows[key];
      replies.push(ActingDesk.apply(rows, text));
      return `${key}: ${was}, then ${rows[key]}`;
    });
    return { lines, stream: texts.join(''), statements: texts.map(text => text.trim()), replies, role: 'operate',
      inverse: null, why_not: 'it is final', parts: parts ?? [{ of: '', row: null, texts, why_not: '' }] };
  }

  preview({ verb, each, stream, done }) {
    this.asked++;
    if (stream !== undefined) {
      const texts = stream.split('\n').slice(done, -1).map(line => line + '\n');
      return texts.length ? { act: this.act(texts) } : { act: null, found: null, why_not: 'nothing of it is left' };
    }
    const trial = { ...this.rows }, parts = each.map(of => {
      const texts = MAKERS[verb](of), rows = { ...trial };
      const isGood = texts.every(text => ActingDesk.apply(rows, text).startsWith('ok'));
      if (isGood) Object.assign(trial, rows);
      return { of, row: null, texts: isGood ? texts : [], why_not: isGood ? '' : 'its status is another' };
    });
    const texts = parts.flatMap(part => part.texts);
    return texts.length ? { act: this.act(texts, parts) } : { act: null, found: null, why_not: 'none of them' };
  }

  /** Does a stream in a state: HTTP's status, the answers, the tag of the state after the last one, and whether it is
   *  lost on its way. */
  do(stream, key, tag) {
    const lines = stream.split('\n').slice(0, -1), answers = [];
    let state = null;
    for (const [n, line] of lines.entries()) {
      const own = key + (n ? '#' + n : '');
      if (!(own in this.keys)) {
        if ((state ?? tag) !== this.tag) break;
        const reply = this.refuses && this.choice(2) ? 'refused 31' : ActingDesk.apply(this.rows, line);
        if (reply.startsWith('ok')) {
          this.accepted.push([line, own]);
          this.tag++;
        }
        state = this.tag;
        this.keys[own] = { reply, state };
        if (this.isEnded()) return [503, 'the desk ends', this.tag, false];
      }
      const { reply } = this.keys[own];
      answers.push({ statement: line, reply });
      if (this.refuses && reply.startsWith('refused')) break;
      this.others();
    }
    if (!answers.length) return [412, 'the plan has changed', this.tag, false];
    const last = this.keys[key + (answers.length > 1 ? '#' + (answers.length - 1) : '')];
    const found = { act: null, found: null, why_not: '', answers, is_whole: answers.length === lines.length };
    return [200, found, last.state, this.choice(2) === 1];
  }

  async fetch(_, { body, headers }) {
    const asked = JSON.parse(body), tag = headers['If-Match'];
    if (this.away > 0) {
      this.away--;
      throw new Error('nobody answers');
    }
    this.others();
    const [status, found, state, isLost] = tag === undefined ? [200, this.preview(asked), this.tag, false]
      : this.do(asked.stream, headers['Idempotency-Key'], +tag);
    if (isLost) throw new Error('the connection was lost');
    return { ok: status === 200, status, text: async () => JSON.stringify(found),
      headers: new Map([['ETag', String(state)]]) };
  }
}

/** Goes through all scripts with at most so many choices that something happens; `run` says what was found. */
async function everyScript(most, run) {
  const found = [];
  const go = async (script, number) => {
    const [desk_, told] = await run(script);
    found.push(told);
    if (number === most) return;
    for (let at = script.length; at < desk_.points.length; at++) {
      for (let choice = 1; choice < desk_.points[at]; choice++) {
        await go([...script, ...new Array(at - script.length).fill(0), choice], number + 1);
      }
    }
  };
  await go([], 0);
  return found;
}
