// The picture of what ran when: a lane for each activity, a column for each step. It has layers, from the ground up,
// whose places stand in page.part.html.

function drawTimeline(plan) {
  const height = plan.bottom + 4;
  const words = 'Timeline, ticks ' + view.from + ' to ' + (view.from + shownColumns() - 1) +
    ', one lane for each activity. The same is in a table at the end of the page.';
  dress(byId('picture'), { viewBox: [0, 0, view.width, height].join(' '), 'aria-label': words });
  // the room of the columns, and a little more for a fault at the right edge
  dress(byId('clip-inside'), { x: gutter(), y: 0, width: rightEdge() - gutter() + 3, height });
  byId('layer-scale').replaceChildren(...laneLines(plan), ...tickNumbers());
  byId('layer-ground').replaceChildren(...groundShapes(plan));
  drawOnChange('bars', [...whatIsShown(), JSON.stringify(lanesOf(plan))], () => drawBars(plan));
  byId('layer-moment').replaceChildren(...momentShapes(plan), ...faultShapes(plan));
  byId('layer-signs').replaceChildren(...flagShapes(), ...laneNames(plan), ...owedMarks(plan));
  byId('notes').replaceChildren(...notesUnder(plan));
}

// All that does not follow the moment.
function drawBars(plan) {
  const bars = barsWorthDrawing(plan);
  const unchecked = plan.ghosts.filter(ghost => plan.lanes.has(ghost.activity));
  dress(byId('layer-bars'), { class: view.choice ? 'picked' : '' }).replaceChildren(
    ...plan.borders.map(column => borderLine(plan, column)),
    ...bars.flatMap(firing => timeLeftShape(plan, firing)),
    ...bars.map(firing => barShape(plan, firing)),
    ...unchecked.map(ghost => ghostShape(plan, ghost)),
    ...causeLines(plan).flat());
  setTabStop(view.tabStop);
}

// ---- under everything: the column looked at, what was not checked, the lanes in which something had to happen, lines

function groundShapes(plan) {
  const height = plan.bottom - TOP;
  const here = xOfColumn(columnNow());
  const ground = [svg('rect', { class: 'column-here', x: here, y: TOP, width: columnWidth(), height })];
  if (broken && xOfStop() < rightEdge()) {
    const x = Math.max(xOfStop(), gutter());
    ground.push(svg('rect', { class: 'unchecked', x, y: TOP, width: rightEdge() - x, height }));
  }
  return [...ground, ...owedLaneShapes(plan), ...columnLines(plan)];
}

const lanesOf = plan => [...plan.lanes.values()];

function owedLaneShapes(plan) {
  const end = clamp(xNow(), gutter(), rightEdge());
  const start = Math.max(gutter(), end - 110);
  return lanesOf(plan).filter(lane => isOwedNow(lane.activity)).map(({ top, height }) =>
    svg('rect', { class: 'owed-lane', x: start, y: top + 1, width: end - start, height: height - 2 }));
}

function columnLines(plan) {
  const lines = [];
  const every = columnWidth() < 6 ? ticksBetweenNumbers() : 1;
  for (let column = view.from; column <= view.from + shownColumns(); column++) {
    if (column % every !== 0) continue;
    const x = xOfColumn(column);
    lines.push(svg('line', { class: 'col-line', x1: x, x2: x, y1: TOP - 4, y2: plan.bottom }));
  }
  return lines;
}

function laneLines(plan) {
  return [...lanesOf(plan).map(lane => lane.top), plan.bottom].map(y =>
    svg('line', { class: 'lane-line', x1: 0, x2: rightEdge(), y1: y, y2: y }));
}

// ---- the numbers of the ticks

const roomOfNumber = () => String(view.from + shownColumns()).length > 3 ? 42 : 26;

function ticksBetweenNumbers() {
  const every = [1, 2, 5, 10, 20, 50, 100, 200, 500];
  return every.find(ticks => ticks * columnWidth() >= roomOfNumber()) || 1000;
}

// The tick looked at has its number in any case, and its neighbours make room for it.
function tickNumbers() {
  const here = columnNow();
  const isInTheWay = column => isShown(here) && Math.abs(column - here) * columnWidth() < roomOfNumber();
  const heading = svg('text', { class: 'axis', x: gutter() - 24, y: 27, 'text-anchor': 'end' }, 'tick');
  const numbers = isNarrow() ? [] : [heading];
  for (let column = view.from; column < view.from + shownColumns(); column++) {
    if (column === here) numbers.push(tickNumber(column, 'axis axis-here'));
    else if (column % ticksBetweenNumbers() === 0 && !isInTheWay(column)) numbers.push(tickNumber(column, 'axis'));
  }
  return numbers;
}

// In the middle of its column, or as near to it as the picture's edges permit.
function tickNumber(column, kind) {
  const half = roomOfNumber() / 2 - 3;
  const x = clamp(xOfColumn(column) + columnWidth() / 2, half, view.width - half);
  return svg('text', { class: kind, x, y: 27, 'text-anchor': 'middle' }, String(column));
}

// ---- the names of the lanes

const WIDER_IN_BOLD = 1.13;

function laneNames(plan) {
  return lanesOf(plan).map(lane => {
    const name = nameOf(lane.activity);
    const isOwed = isOwedNow(lane.activity);
    const room = isNarrow() ? view.width - 20 : GUTTER - 12;
    const place = isNarrow() ? { x: 2, y: lane.top + 14, 'text-anchor': 'start' }
      : { x: GUTTER - 8, y: lane.top + lane.height / 2 + 4, 'text-anchor': 'end' };
    return svg('text', { class: isOwed ? 'lane-name lane-owed' : 'lane-name', ...place },
      shortened(name, isOwed ? room / WIDER_IN_BOLD : room),
      svg('title', {}, name + ' (transition ' + lane.activity + '), ' + lasting(lane.activity)));
  });
}

function shortened(name, room) {
  const letters = [...name];
  let width = 0;
  for (let at = 0; at < letters.length; at++) {
    width += roughWidth(letters[at]);
    if (width > room) return letters.slice(0, at - 1).join('') + '\u2026';
  }
  return name;
}

// Guessed for the widest of the usual fonts.
function roughWidth(letter) {
  if (letter >= '\u1100') return 13.5;
  if ('ijlftr .,:;\'|!()-'.includes(letter)) return 5;
  if ('mwMW@%<>&#+=~'.includes(letter)) return 12.9;
  return letter === letter.toLowerCase() ? 8 : 9.5;
}

// ---- sentences under the picture about what is not in it

function notesUnder(plan) {
  const notes = [];
  if (plan.isPartial) {
    notes.push('Shown: what runs at this moment, what had to happen, and what the chosen activity waited for.');
  }
  if (plan.busy.size > MANY_LANES) {
    notes.push(toggle('Show all ' + plan.busy.size + ' activities of these ticks', view.allLanes,
      () => show({ allLanes: !view.allLanes })));
  } else if (plan.quiet.length) {
    const quiet = plural(plan.quiet.length, 'activity that is', 'activities that are');
    notes.push(quiet + ' quiet in these ticks: ' + plan.quiet.map(nameOf).join(', '));
  }
  const crowded = lanesOf(plan).filter(lane => lane.isCrowded).map(lane => quoted(nameOf(lane.activity)));
  if (crowded.length) notes.push('More than ' + MOST_ROWS + ' at a time share the last row: ' + crowded.join(', '));
  if (!data.followed) notes.push('No bars. ' + NOT_FOLLOWED);
  return notes.map(note => html('p', { class: 'hint' }, note));
}
