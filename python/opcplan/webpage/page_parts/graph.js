// The day as a graph: a box for each occurrence, to the right of all that it waits for, with the critical chain marked.
const drawn = { nodes: new Map(), lines: [] };

/** A line through the columns that a pair passes. */
function wayPath(way) {
  let path = '';
  for (let n = 1; n < way.length; n++) {
    const x = way[n - 1].x + NODE.wide, to = way[n].x, middle = (x + to) / 2, { y } = way[n - 1];
    const end = to - (n === way.length - 1 ? 5 : 0);
    path += (path ? 'L' : 'M') + [x, y] + 'C' + [middle, y, middle, way[n].y, end, way[n].y];
  }
  return path;
}

function pairLine({ row, successor, way }, isCritical) {
  const { x, y } = way.at(-1);
  const line = s('g', { class: 'pair' + (isCritical ? ' critical' : '') }, s('path', { class: 'way', d: wayPath(way) }),
    s('path', { class: 'head', d: 'M' + x + ' ' + y + 'l-7 -4v8z' }));
  drawn.lines.push({ row, successor, line });
  return line;
}

/** The second line of a box: when the row arrived, and when it is due or how late it is. */
function nodeTimes(i) {
  if ('CH'.includes(state(i))) return soon(ia[i]) + ' · complete';
  return soon(ia[i]) + ' · ' + (late.has(i) ? lateness(i) : 'due ' + (dayOf(due[i]) === dayOf(ia[i]) ? clock(due[i])
    : WEEKDAYS[dateOf(due[i]).getUTCDay()] + ' ' + clock(due[i])));
}

function node(i, { x, y }, number, length) {
  const where = number ? '; ' + number + ' of ' + length + ' in the critical chain' : '';
  return s('g', { class: 'node s' + state(i) + (number ? ' critical' : ''), 'data-i': i, role: 'button', tabindex: -1,
    'aria-label': rowName(i) + ', ' + asText(why(i)) + ', due ' + at(due[i]) + where,
    transform: 'translate(' + x + ' ' + (y - NODE.high / 2) + ')' },
  s('rect', { class: 'body', width: NODE.wide, height: NODE.high, rx: 6 }),
  s('rect', { class: 'sign', x: 7, y: 11, width: 18, height: 18, rx: 4 }),
  s('text', { class: 'letter', x: 16, y: 24.5, 'text-anchor': 'middle' }, LETTER[state(i)] || state(i)),
  s('text', { class: 'title', x: 32, y: 17 }, name(i)),
  s('text', { class: 'times ' + tone(i), x: 32, y: 32 }, nodeTimes(i)),
  number ? s('text', { class: 'number', x: NODE.wide - 6, y: 13, 'text-anchor': 'end' }, String(number)) : '',
  s('title', {}, rowName(i) + ', due ' + at(due[i])));
}

/** The text about the critical chain, as parts. */
function chainText(chain) {
  if (!chain.length) return '';
  const first = chain[0], last = chain.at(-1), left = due[last] - D.now;
  if (!isLeft(last)) {
    return ['All of these are complete. The longest chain has ' + chain.length + ': ', first, ' to ', last, '.'];
  }
  const time = late.has(last) ? lateness(last) : left < 0 ? 'past' : length(left) + ' from now, ' +
    length(Math.floor(left / chain.length)) + ' for each';
  return ['Critical chain: ' + chain.length + ' one after the other, ', first, ' to ', last,
    ', which is due ' + at(due[last]) + ' (' + time + ').'];
}

const CHAIN_HINT = 'It is the longest chain of what isn’t complete; of several, the one that is due first. A plan ' +
  'has no running times, so each counts as one. A box is to the right of all that it waits for.';

/** How much of the graph isn't drawn. */
function cutText({ nodes, ways, count, pairCount }) {
  const told = [];
  if (count > nodes.size) told.push(nodes.size + ' of ' + count + ' that wait or are waited for are drawn, those ' +
    'nearest to the critical chain and to what is in trouble');
  if (pairCount > ways.length) told.push(ways.length + ' of ' + pairCount + ' arrows are drawn');
  return told.length ? told.join('; ') + '. The search shows fewer, and “Its chain” those of one row.' : '';
}

/** The chain of the chosen row, in whichever hours. */
const wholeChain = () => [...chainOf(view.pick)].filter(isWanted).sort((a, b) => a - b);

/** Draws the rows of the day, or the whole chain of the chosen row, as a graph. */
function drawGraph(rows) {
  const graph = laidGraph(view.kind === 'chain' ? wholeChain() : withWaits(rows));
  const place = new Map(graph.chain.map((i, n) => [i, n + 1])), { wide, high, nodes, ways } = graph;
  Object.assign(drawn, { nodes, lines: [] });
  if (!nodes.size) {
    fill('#lines', h('div', { class: 'pane' }, h('p', { class: 'empty' }, rows.length
      ? 'None of these ' + rows.length + ' waits for another one.' : nothing(rowsOfDay().counts))));
    Object.assign(laid, { box: null, buttons: new Map(), folds: new Map() });
    return;
  }
  const isOfChain = ({ row, successor }) => place.has(row) && place.get(successor) === place.get(row) + 1;
  const lines = [...ways].sort((a, b) => isOfChain(a) - isOfChain(b)).map(way => pairLine(way, isOfChain(way)));
  const boxes = [...nodes].map(([i, item]) => node(i, item, place.get(i), graph.chain.length));
  const label = 'What waits for what: ' + many(nodes.size, 'occurrence') + ', ' + many(ways.length, 'pair');
  const picture = s('svg', { class: 'graph', role: 'group', 'aria-label': label, width: wide + 12, height: high + 12,
    viewBox: '-6 -6 ' + (wide + 12) + ' ' + (high + 12) }, lines, boxes);
  const cut = cutText(graph), beyond = [...nodes.keys()].filter(isOutside).length;
  const lone = rows.filter(i => !nodes.has(i)).length;
  fill('#lines', h('div', { class: 'pane' },
    h('p', { class: 'chain' }, asNodes(chainText(graph.chain) || [])),
    h('p', { class: 'chain quiet' }, CHAIN_HINT, beyond ? beyondText(beyond) : '', lone ? loneText(lone) : ''),
    cut && h('p', { class: 'chain is-late' }, cut), h('div', { class: 'room' }, picture)));
  narrow(picture);
  Object.assign(laid, { box: picture, buttons: new Map(boxes.map(box => [+box.dataset.i, box])), folds: new Map() });
  const start = nodes.has(view.pick) ? view.pick : graph.chain[0] ?? [...nodes.keys()][0];
  laid.buttons.get(start).setAttribute('tabindex', '0');
  const room = $('#lines .room'), { x, y } = nodes.get(start);
  room.scrollTo(x - (nodes.has(view.pick) ? room.clientWidth / 2 - NODE.wide / 2 : 20), y - room.clientHeight / 2);
}

const beyondText = beyond => ' ' + many(beyond, 'box is', 'boxes are') + ' of other hours than these.';
const loneText = lone => ' ' + many(lone, 'occurrence that waits for none of these isn’t drawn.',
  'occurrences that wait for none of these aren’t drawn.');

/** Draws texts narrower that are wider than their box. */
function narrow(picture) {
  for (const text of picture.querySelectorAll('.title, .times')) {
    const room = NODE.wide - (text.matches('.critical > .title') ? 54 : 38);
    if (text.getComputedTextLength() <= room) continue;
    text.setAttribute('textLength', room);
    text.setAttribute('lengthAdjust', 'spacingAndGlyphs');
  }
}

/** Shows the chain of a row in the graph. */
function showNode(i) {
  const isThere = laid.buttons.has(i), up = isThere ? walk(i, before) : new Set();
  const down = isThere ? walk(i, after) : new Set(), chain = new Set([i, ...up, ...down]);
  for (const [k, box] of laid.buttons) {
    box.classList.toggle('on', k === i);
    box.classList.toggle('up', up.has(k));
    box.classList.toggle('down', down.has(k));
  }
  for (const { row, successor, line } of drawn.lines) {
    line.classList.toggle('own', isThere && chain.has(row) && chain.has(successor));
  }
}

/** The box that an arrow key leads to: across along a pair, up and down within the column. */
function nextNode(box, [across, down]) {
  const item = drawn.nodes.get(+box.dataset.i), others = [...drawn.nodes.values()];
  const side = across > 0 ? 'successor' : 'row', other = across > 0 ? 'row' : 'successor';
  const near = across
    ? drawn.lines.filter(line => line[other] === item.row).map(line => drawn.nodes.get(line[side]))
    : others.filter(one => one.column === item.column && (one.y - item.y) * down > 0);
  const [next] = near.sort((a, b) => Math.abs(a.y - item.y) - Math.abs(b.y - item.y));
  return next && laid.buttons.get(next.row);
}

function showAsGraph(isGraph) {
  view.graph = isGraph;
  keepFocus(drawDay);
}
