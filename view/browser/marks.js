// The marks of the picture that are no bars: the moment looked at, what had to happen then, the fault, and the border
// within a step.

const WIDE_ENOUGH_FOR_BORDER = 60;
const WIDE_ENOUGH_FOR_OWED = 14;

function momentShapes(plan) {
  const x = xNow();
  return isInPicture(x) ? [
    svg('line', { class: 'cursor-line', x1: x, x2: x, y1: TOP, y2: plan.bottom }),
    path('cursor-knob', 'M', x - 5, TOP - 7, 'h 10 l -5 7 z'),
  ] : [];
}

// In a wide column one can see on which side of its border an event stands.
function bordersInSight() {
  const columns = Array.from({ length: shownColumns() }, (_, index) => view.from + index);
  return columnWidth() < WIDE_ENOUGH_FOR_BORDER ? [] : columns.filter(hasBorder);
}

function borderLine(plan, column) {
  const x = xOfMoment(firstStartOf(column));
  return svg('line', { class: 'border-line', x1: x, x2: x, y1: TOP, y2: plan.bottom });
}

// ---- the fault: a line down the picture, a cross in the lane that it names, and a flag over the picture

const isFaultInSight = () => broken && isInPicture(xOfStop());
const hasCross = lane => broken && isOfThisNet(data.done) && activityOf(data.done) === lane.activity;

function faultShapes(plan) {
  if (!isFaultInSight()) return [];
  const x = xOfStop();
  const line = svg('line', { class: 'fault-line', x1: x, x2: x, y1: TOP - 2, y2: plan.bottom });
  const named = [...plan.lanes.values()].find(hasCross);
  return named ? [line, ...crossShapes(x, middleOfRow(named, rowOfFault()))] : [line];
}

function crossShapes(x, y) {
  return [
    svg('circle', { class: 'fault-cell', cx: x, cy: y, r: 9 }),
    path('fault-mark', 'M', x - 6, y - 6, 'l 12 12 m 0 -12 l -12 12'),
  ];
}

function flagShapes() {
  if (!isFaultInSight()) return [];
  const width = 112;
  const left = clamp(xOfStop() - width / 2, gutter(), view.width - width - 1);
  const what = kindOf(data.done) === 'nothing' ? 'event' : kindOf(data.done);
  const words = '\u2715 ' + what + ' refused';
  return [
    svg('rect', { class: 'fault-flag', x: left, y: 0, width, height: 15, rx: 3 }),
    svg('text', { class: 'fault-text', x: left + width / 2, y: 12, 'text-anchor': 'middle' }, words),
    ...uncheckedText(left + width + 8),
  ];
}

function uncheckedText(x) {
  const room = rightEdge() - x;
  if (room < 80) return [];
  const words = room > 230 ? 'what the box wrote next: not checked' : 'not checked';
  return [svg('text', { class: 'unchecked-text', x, y: 12 }, words)];
}

// ---- what had to happen at the moment looked at: a diamond for a start, a square for an end

// In narrow columns a mark would cover other ticks than its own, so there it is drawn at the last moment only.
function owedMarks(plan) {
  const isWide = columnWidth() >= WIDE_ENOUGH_FOR_OWED || view.moment === lastMoment;
  if (!isWide || !isInPicture(xNow())) return [];
  const { starts, ends } = owedNow();
  const inLanes = activities => activities.map(activity => plan.lanes.get(activity)).filter(lane => lane);
  return [...inLanes(starts).map(owedStartMark), ...inLanes(ends).flatMap(owedEndMarks)];
}

function owedStartMark(lane) {
  const x = xOfOwed(lane);
  const y = middleOfRow(lane, freeRow(lane.activity, view.moment));
  const diamond = path('owed-mark', 'M', x - 8, y, 'l 8 -8 l 8 8 l -8 8 z');
  const mark = owedMark(lane, diamond, y, 'had to start');
  mark.addEventListener('click', () => choose(choiceOfStart(lane.activity, view.moment)));
  return mark;
}

// One at each firing that had to end; but only one where bars are thin, or where firings are not followed.
function owedEndMarks(lane) {
  const due = dueAt(countNow(), lane.activity);
  const marked = due.length && lane.rowHeight >= ROW_HEIGHT ? due : [due[0]];
  return marked.map(firing => {
    const x = xOfOwed(lane);
    const y = middleOfRow(lane, firing ? firing.row : 0);
    const mark = owedMark(lane, path('owed-mark', 'M', x - 6, y - 6, 'h 12 v 12 h -12 z'), y, 'had to end');
    if (firing) mark.addEventListener('click', () => choose(choiceOfFiring(firing)));
    return mark;
  });
}

// What led to the fault was owed until then. So its mark stands close by the fault, covered by neither line nor cross.
function xOfOwed(lane) {
  if (!broken || view.moment !== lastMoment) return xNow();
  return xOfStop() - (hasCross(lane) ? 19 : 9);
}

// The words are written at the last moment only. Elsewhere they would cover the very bar that did what had to be done.
function owedMark(lane, shape, y, words) {
  const name = quoted(nameOf(lane.activity)) + ' ' + words + ' here';
  const mark = svg('g', { class: 'owedmark', role: 'button', tabindex: 0, 'aria-label': name }, shape);
  if (view.moment !== lastMoment) return mark;
  const x = xOfOwed(lane);
  const right = broken ? xOfStop() + (hasCross(lane) ? 13 : 8) : x + 12;
  const isLeft = view.width - right < 90 && right - gutter() > 110;
  const anchor = isLeft ? { x: x - 12, 'text-anchor': 'end' } : { x: right, 'text-anchor': 'start' };
  mark.append(svg('text', { class: 'owed-text', y: y + 4, ...anchor }, words));
  return mark;
}
