// The bars of the picture: what ran, how long it might have run, and what the box wrote after the fault.

const NARROWEST_BAR = 5;
const EASY_TO_HIT = 13;         // a finger or a mouse may miss a narrower bar by a little
const OUT_OF_SIGHT = 20;        // a bar that goes on beyond the picture goes so far, and the clip cuts it off

const isChosen = firing => Boolean(view.choice) && view.choice.firing === firing;

// From where to where a bar goes, and up to where the shortest time of its activity went.
function spanOf(firing) {
  const leftmost = gutter() - OUT_OF_SIGHT;
  const rightmost = rightEdge() + OUT_OF_SIGHT;
  const start = firing.startEvent < 0 ? leftmost : Math.max(leftmost, xOfEvent(firing.startEvent));
  const end = Math.max(start + NARROWEST_BAR, Math.min(rightmost, xOfEnd(firing)));
  const shortest = data.sfd[firing.activity];
  const sure = data.lfd[firing.activity] === 0 ? end : shortest === 0 ? start : xOfColumn(firing.startTick + shortest);
  return { start, end, sure: clamp(sure, start, end) };
}

function barShape(plan, firing) {
  const { start, end, sure } = spanOf(firing);
  const lane = plan.lanes.get(firing.activity);
  const top = topOfRow(lane, firing.row);
  const height = lane.rowHeight - 2;
  const words = firingWords(firing);
  const part = (kind, from, to) => svg('rect', { class: kind, x: from, y: top, width: to - from, height, rx: 2 });
  const bar = svg('g', {
    class: 'firing' + (isChosen(firing) ? ' sel' : plan.causes.has(firing) ? ' cause' : ''), 'data-f': firing.number,
    role: 'button', tabindex: -1, 'aria-pressed': isChosen(firing), 'aria-label': words,
  }, svg('title', {}, words));
  const slack = (EASY_TO_HIT - (end - start)) / 2;
  if (slack > 0) bar.append(part('hit', start - slack, end + slack));
  if (sure > start) bar.append(part('must', start, sure));
  if (end > sure) bar.append(part('may', sure, end));
  bar.append(part('edge', start, end));
  if (isRunning(firing)) bar.append(arrowHead(end, top + height / 2, Math.min(5, height / 2)));
  else if (lane.rowHeight >= ROW_HEIGHT) bar.append(...ticksTakenText(firing, top));
  return bar;
}

// An arrow head: it still runs.
const arrowHead = (x, y, size) => path('open-end', 'M', x - size - 1, y - size, 'l', size, size, 'l', -size, size);

// The number stands in the longer part of what is in sight of the bar, if there is room for it.
function ticksTakenText(firing, top) {
  const span = spanOf(firing);
  const start = Math.max(span.start, gutter());
  const end = Math.min(span.end, rightEdge());
  const sure = clamp(span.sure, start, end);
  const isInSure = sure - start >= end - sure;
  const room = isInSure ? sure - start : end - sure;
  if (ticksTaken(firing) === 0 || room <= 12) return [];
  const x = isInSure ? (start + sure) / 2 : (sure + end) / 2;
  const words = room > 50 ? plural(ticksTaken(firing), 'tick') : String(ticksTaken(firing));
  return [svg('text', { class: isInSure ? 'must-text' : 'may-text', x, y: top + 12, 'text-anchor': 'middle' }, words)];
}

// The time that a firing had left when it ended, or has left now: up to the last column in which it may end.
function timeLeftShape(plan, firing) {
  const lane = plan.lanes.get(firing.activity);
  const longest = data.lfd[firing.activity];
  const start = xOfEnd(firing);
  const end = Math.min(xOfColumn(firing.startTick + longest + 1), rightEdge() + OUT_OF_SIGHT);
  if (longest === 0 || columnWidth() < 7 || end <= start + 1) return [];
  const inset = lane.rowHeight >= ROW_HEIGHT ? 4 : 1;
  const height = lane.rowHeight - 2 - 2 * inset;
  return svg('rect', { class: 'room', x: start, y: topOfRow(lane, firing.row) + inset, width: end - start, height });
}

// A step may have thousands of events. Of bars that would cover one another to the pixel only one is drawn; the
// chosen one comes first, so that it is not left out.
function barsWorthDrawing(plan) {
  const inLanes = plan.firings.filter(firing => plan.lanes.has(firing.activity));
  const drawn = new Map();
  for (const firing of [...inLanes.filter(isChosen), ...inLanes]) {
    const { start, end } = spanOf(firing);
    const top = topOfRow(plan.lanes.get(firing.activity), firing.row);
    const pixels = [top, Math.round(start), Math.round(end)].join('/');
    if (!drawn.has(pixels)) drawn.set(pixels, firing);
  }
  return [...drawn.values()].sort((a, b) => a.number - b.number);
}

function ghostShape(plan, ghost) {
  const lane = plan.lanes.get(ghost.activity);
  const top = topOfRow(lane, ghost.row);
  const start = ghost.goesOn ? xOfStop() : xOfEvent(ghost.startEvent);
  const width = Math.max(NARROWEST_BAR, xOfGhostEnd(ghost) - start);
  const shape = ghost.isLone
    ? path('ghost', 'M', start - 4, top + 2, 'v 12 M', start - 4, top + 8, 'h 8')
    : svg('rect', { class: 'ghost', x: start, y: top + 1, width, height: lane.rowHeight - 4, rx: 2 });
  const words = ghostWords(ghost);
  return dress(shape, { role: 'img', 'aria-label': words }, [svg('title', {}, words)]);
}
