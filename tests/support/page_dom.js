// As much of a browser's document as the parts need that draw what needs a person and the buttons of a row, and what
// reads back what they drew.
class Element {
  constructor(tag) {
    Object.assign(this, { tagName: tag, attributes: {}, childNodes: [], style: {}, listeners: {}, hidden: false });
  }
  get children() { return this.childNodes.filter(one => one instanceof Element); }
  get textContent() { return this.childNodes.map(one => one.textContent ?? one).join(''); }
  setAttribute(name, value) { this.attributes[name] = String(value); }
  addEventListener(name, act) { this.listeners[name] = act; }
  append(...nodes) { this.childNodes.push(...nodes); }
  replaceChildren(...nodes) { this.childNodes = nodes; }
  remove() { this.isGone = true; }
  querySelector() { return null; }
  contains() { return false; }
  focus() {}
  all(test) { return this.children.flatMap(one => [...test(one) ? [one] : [], ...one.all(test)]); }
}
const boxes = {}, chosen = [];
const document = {
  visibilityState: 'visible',
  createElement: tag => new Element(tag),
  getElementById: id => ({ textContent: JSON.stringify(GIVEN[id]) }),
  querySelector: selector => boxes[selector] ??= new Element('div'),
  querySelectorAll: () => [],
};
const choose = i => chosen.push(serial[i]);
const redraw = (_, draw) => draw();
const focusPlace = () => () => {}, readingPlace = focusPlace, innerPlaces = focusPlace;

const ofClass = name => one => (one.attributes.class || '').split(' ').includes(name);
/** A text as it was drawn, with the whole name of each row in place of its button. */
const plain = one => one instanceof Element
  ? ofClass('in')(one) ? fullName(+one.attributes['data-i']) : one.childNodes.map(plain).join('') : one;
const serialsOf = buttons => buttons.map(one => serial[+one.attributes['data-i']]);

/** What the box of needs shows: each entry with the row that its button leads to, and the rows that it counts. */
function shown() {
  const box = document.querySelector('#needs');
  box.all(ofClass('more')).filter(one => !one.isGone).forEach(one => one.listeners.click({ target: one }));
  const entries = box.all(one => 'data-need' in one.attributes).map(one => {
    const inside = one.all(ofClass('group')), [own] = one.children.filter(ofClass('go'));
    const [what] = one.children.filter(ofClass('what')), lines = one.children.filter(ofClass('why'));
    const text = what ? what.children[0] : lines.shift();
    inside.forEach(part => part.listeners.toggle());
    own?.listeners.click();
    return {
      name: one.attributes['data-need'], look: one.attributes.class, serial: own ? chosen.at(-1) : null,
      text: plain(text), first: lines.map(plain), named: serialsOf(text.all(ofClass('in'))),
      counts: serialsOf(inside.flatMap(part => part.all(ofClass('go')))),
    };
  });
  const said = box.all(one => ofClass('empty')(one) || one.attributes.id === 'about' || ofClass('beside')(one));
  const beside = serialsOf(document.querySelector('#next').all(ofClass('go')));
  return { entries, said: said.map(one => one.textContent), head: box.all(one => one.tagName === 'h3')[0].textContent,
    hidden: box.hidden, beside };
}
