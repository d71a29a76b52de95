// What a desk's journal shows: when rows ran, when they are expected to end, what ended late or is going to.
const RAN = { S: 'not ended yet', C: 'complete', E: 'in error' };
const took = seconds => seconds < 59.5 ? Math.round(seconds) + ' s' : length(Math.round(seconds / 60));

/** A run in words. */
function runText([start, end, seconds, status]) {
  const begin = start === null ? '' : 'started ' + at(start);
  const ended = RAN[status] + (end === null ? '' : ' ' + at(end));
  return [begin, ended, seconds === null ? '' : 'after ' + took(seconds)].filter(Boolean).join(', ');
}

function usualText(usual) {
  if (!usual) return 'no whole run is known';
  const [middle, worst, count] = usual;
  return count === 1 ? took(middle) + ', by one run' :
    took(middle) + ' in the middle, ' + took(worst) + ' at worst, by the last ' + count + ' runs';
}

const endText = ([, end, isLeast]) => (isLeast ? 'not before ' : '') + at(end);
const pastText = (i, end) => end > due[i] ? ', late by ' + length(end - due[i]) : '';

/** The lines about a row's runs in its card. */
function runPairs(i) {
  if (!D.actual) return [];
  const runs = D.actual.runs[i] || [], expected = D.actual.expected[i];
  return [
    pair('Ran', runs.length ? runs.map((run, k) => [k ? '; ' : '', runText(run)]).flat() : 'no run is known'),
    pair('Takes', usualText(D.actual.usual[app(i)])),
    expected ? pair('Expected end', endText(expected) + pastText(i, expected[1])) : [],
  ];
}

function chainLine(i) {
  const [start, end, isLeast] = D.actual.expected[i];
  return line(i, at(start) + ' to ' + at(end) + (isLeast ? ' or later' : ''), [WORD[state(i)] + pastText(i, end)]);
}

function endedLine([i, past]) {
  const end = D.actual.runs[i][D.actual.runs[i].length - 1][1];
  return line(i, 'ended ' + at(end), ['due ' + at(due[i]) + ', late by ' + took(past)]);
}

const goingLine = i => line(i, 'due ' + at(due[i]),
  ['expected to end ' + endText(D.actual.expected[i]) + pastText(i, D.actual.expected[i][1])]);

const listed = (...given) => h('div', {}, list(...given));

/** What ended late or is going to, and the chain that decides the end, where there is a journal. */
function drawEnds() {
  if (!D.actual) return;
  const { going, ended, chain, hours } = D.actual;
  const goingWanted = going.filter(isWanted), endedWanted = ended.filter(one => isWanted(one[0]));
  const box = [
    listed('Going to end late', goingWanted, goingLine,
      none('Nothing that is in time is going to end late.', 'None of these is going to end late.'), 8),
    listed('Ended late in the ' + hours + ' hours before', endedWanted, endedLine,
      none('Nothing ended late.', 'None of these ended late.'), 8),
  ];
  if (chain.length) {
    const last = D.actual.expected[chain[chain.length - 1]];
    box.push(listed('All is expected to be done ' + endText(last) + ', by this chain', chain, chainLine, '', 12));
  }
  fill('#ends', box);
}
