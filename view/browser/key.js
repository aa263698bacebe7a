// The key to the picture: only what the picture can have.

function drawKey(plan) {
  const entries = [
    [66, [block('must', 0, 1, 22, 14), block('may', 22, 1, 22, 14), block('room', 44, 4, 20, 8)],
      'ran: shortest time, then longer, then the time it had left'],
    [18, [path('owed-mark', 'M 9 0 l 8 8 l -8 8 l -8 -8 z')], 'had to start'],
    [14, [block('owed-mark', 1, 2, 12, 12)], 'had to end'],
    ...broken ? keyOfFault() : [],
    [26, [path('cause-line', 'M 1 3 C 12 3 12 13 22 13'), svg('circle', { class: 'cause-tip', cx: 22, cy: 13, r: 3 })],
      'a token that was waited for went from one to the next'],
    [26, [path('cause-line side', 'M 1 3 C 12 3 12 13 22 13')], 'another token'],
    ...plan.borders.length ? [keyOfBorder()] : [],
    [14, [path('cursor-knob', 'M 2 4 h 10 l -5 7 z')], 'the moment looked at'],
  ];
  byId('key').replaceChildren(...entries.map(([width, shapes, words]) => html('li', {},
    svg('svg', { width, height: 16, viewBox: [0, 0, width, 16].join(' '), 'aria-hidden': true }, shapes), words)));
}

const block = (kind, x, y, width, height) => svg('rect', { class: kind, x, y, width, height });

function keyOfFault() {
  return [
    [10, [svg('line', { class: 'fault-line', x1: 5, x2: 5, y1: 0, y2: 16 })], 'the broken rule'],
    [26, [block('unchecked', 0, 0, 26, 16), block('ghost', 3, 3, 20, 10)], 'written by the box after it, not checked'],
  ];
}

function keyOfBorder() {
  const line = svg('line', { class: 'border-line', x1: 5, x2: 5, y1: 0, y2: 16 });
  return [10, [line], 'from here on only what started at this tick may end'];
}
