// The strip over the picture of a long log: how much happened where, and which part the picture shows. It is there
// only where the picture does not show the whole log.

const STRIP_HEIGHT = 40;

function drawOverview() {
  const box = byId('overview');
  if (columnCount <= shownColumns()) {
    ['role', 'tabindex'].forEach(name => box.removeAttribute(name));
    return box.replaceChildren();
  }
  const last = view.from + shownColumns() - 1;
  dress(box, {
    role: 'slider', tabindex: 0, 'aria-label': 'First tick shown',
    'aria-valuemin': 0, 'aria-valuemax': columnCount - shownColumns(), 'aria-valuenow': view.from,
    'aria-valuetext': 'ticks ' + view.from + ' to ' + last + ' of ' + (columnCount - 1),
  });
  const viewBox = [0, 0, view.width, STRIP_HEIGHT].join(' ');
  const words = 'The whole log, ' + plural(columnCount - 1, 'tick') + ': the frame is what the picture below shows. ';
  box.replaceChildren(
    html('p', { class: 'hint' }, words, html('span', { class: 'noprint' }, 'Click or drag to go elsewhere.')),
    svg('svg', { viewBox, width: '100%', 'aria-hidden': true },
      crowdShapes(), baseLine(), stripFault(), frameShape(), stripMoment()));
}

const xInStrip = column => column / columnCount * view.width;

// As many parts as can be told apart. Each is as high as it has events.
function crowdShapes() {
  const parts = Math.min(Math.floor(view.width / 3), columnCount);
  const events = new Array(parts).fill(0);
  for (let column = 0; column < columnCount; column++) {
    events[Math.floor(column * parts / columnCount)] += closes(column) - opens[column];
  }
  const most = Math.max(1, ...events);
  const width = view.width / parts;
  const checked = broken ? columnOf[data.done] : columnCount;
  const pieces = { 'strip-checked': [], 'strip-after': [] };
  events.forEach((count, part) => {
    const height = count ? Math.max(2, count / most * (STRIP_HEIGHT - 14)) : 0;
    const kind = part * columnCount / parts <= checked ? 'strip-checked' : 'strip-after';
    pieces[kind].push('M', part * width, STRIP_HEIGHT, 'v', -height, 'h', Math.max(1, width - 0.6), 'v', height, 'z');
  });
  return Object.entries(pieces).map(([kind, drawn]) => path(kind, ...drawn));
}

const baseLine = () =>
  svg('line', { class: 'strip-base', x1: 0, x2: view.width, y1: STRIP_HEIGHT - 0.5, y2: STRIP_HEIGHT - 0.5 });

// The flag flies to the side that has room for it.
function stripFault() {
  if (!broken) return [];
  const x = Math.min(xInStrip(columnOf[data.done] + 1), view.width - 2);
  const away = x > view.width - 14 ? -1 : 1;
  return [
    svg('line', { class: 'fault-line', x1: x, x2: x, y1: 0, y2: STRIP_HEIGHT }),
    path('fault-flag', 'M', x, 0, 'h', 12 * away, 'l', -4 * away, 5, 'l', 4 * away, 5, 'h', -12 * away, 'z'),
  ];
}

function frameShape() {
  const width = Math.max(6, xInStrip(shownColumns()));
  const x = clamp(xInStrip(view.from), 1, view.width - width - 1);
  return svg('rect', { class: 'strip-frame', x, y: 1, width, height: STRIP_HEIGHT - 2, rx: 3 });
}

const stripMoment = () =>
  path('cursor-knob', 'M', xInStrip(columnNow() + 0.5) - 4, 3, 'h 8 l -4 6 z');

function moveFrameTo(pointer) {
  const strip = byId('overview').querySelector('svg').getBoundingClientRect();
  const column = (pointer.clientX - strip.left) / strip.width * columnCount;
  show({ from: column - shownColumns() / 2 });
}

function steerOverview() {
  const box = byId('overview');
  box.addEventListener('pointerdown', pointer => {
    if (!pointer.target.closest('svg')) return;
    box.setPointerCapture(pointer.pointerId);       // until it is let go, wherever it goes
    moveFrameTo(pointer);
  });
  box.addEventListener('pointermove', pointer => box.hasPointerCapture(pointer.pointerId) && moveFrameTo(pointer));
  box.addEventListener('keydown', event => {
    const page = shownColumns();
    const far = columnCount;
    const step = { ArrowLeft: -1, ArrowRight: 1, PageDown: -page, PageUp: page, Home: -far, End: far }[event.key];
    if (!step || event.shiftKey) return;
    event.preventDefault();
    show({ from: view.from + step });
  });
}
