// Makes elements of HTML and SVG. Names are the vendors' text: a string only ever becomes a text node.

const byId = id => document.getElementById(id);

// A tenth of a pixel is enough for any place in a picture.
const tenths = value => Math.round(value * 10) / 10;

function dress(element, attributes, children = []) {
  for (const [name, value] of Object.entries(attributes)) {
    element.setAttribute(name, typeof value === 'number' ? tenths(value) : value);
  }
  element.append(...children.flat(Infinity));
  return element;
}

const html = (tag, attributes = {}, ...children) => dress(document.createElement(tag), attributes, children);

const svg = (tag, attributes = {}, ...children) =>
  dress(document.createElementNS('http://www.w3.org/2000/svg', tag), attributes, children);

// A path from pieces such as 'M', 10.26, 4, 'h', 5: the numbers are rounded, the letters stay.
const path = (kind, ...pieces) =>
  svg('path', { class: kind, d: pieces.map(piece => typeof piece === 'number' ? tenths(piece) : piece).join(' ') });

function button(attributes, text, press) {
  const made = html('button', { type: 'button', ...attributes }, text);
  made.addEventListener('click', press);
  return made;
}

// It looks like a link, since it leads to another thing on the page. It has no address, so it is a button.
const link = (text, go) => button({ class: 'link' }, text, go);

// A button that stays pressed. Its words never change: a screen reader tells them together with the state.
const toggle = (text, pressed, flip) => button({ 'aria-pressed': pressed }, text, flip);

const bullets = items => html('ul', { class: 'bullets' }, items.map(item => html('li', {}, item)));

// Each row opens with a cell that is its heading. A cell is a text, an element, or a list of both.
function table(caption, headings, rows) {
  const head = html('tr', {}, headings.map(heading => html('th', { scope: 'col' }, heading)));
  const body = rows.map(([first, ...others]) =>
    html('tr', {}, html('th', { scope: 'row' }, first), others.map(cell => html('td', {}, cell))));
  const told = caption ? html('caption', {}, caption) : [];
  return html('table', {}, told, html('thead', {}, head), html('tbody', {}, body));
}
