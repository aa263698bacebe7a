// Where things stand in the picture from left to right, in pixels. All follows from `view` and the log. No text is
// measured, so the same log at the same width always gives the same picture.

const GUTTER = 186;
const WIDEST_COLUMN = 240;
const FEWEST_COLUMNS = 4;

const isNarrow = () => view.width < 640;

// The lanes' names stand to the left of them, on a narrow page above them.
const gutter = () => isNarrow() ? 0 : GUTTER;
const roomForColumns = () => view.width - gutter() - 8;
const mostColumns = () => Math.min(columnCount, Math.floor(roomForColumns() / 2));

function shownColumns(wished = view.wished) {
  const readable = Math.max(6, Math.floor(roomForColumns() / (isNarrow() ? 20 : 22)));
  return Math.min(mostColumns(), wished ? Math.max(FEWEST_COLUMNS, Math.round(wished)) : readable);
}

const columnWidth = () => Math.min(WIDEST_COLUMN, roomForColumns() / shownColumns());
const xOfColumn = column => gutter() + (column - view.from) * columnWidth();
const rightEdge = () => xOfColumn(view.from + shownColumns());
const columnAt = x => Math.floor(view.from + (x - gutter()) / columnWidth());

const isShown = column => column >= view.from && column < view.from + shownColumns();
const isInPicture = x => x >= gutter() - 1 && x <= rightEdge() + 1;

// The first column to show so that this one is well in sight. What led to a fault matters more than what came after.
const centredOn = column => column - shownColumns() * (broken ? 0.65 : 0.5);

// No time passes within a column, but order does: event i of n stands at (i + 1)/(n + 1) of the width.
function xOfEvent(event) {
  const column = columnOf[event];
  if (kindOf(event) === 'tick') return xOfColumn(column + 1);
  const share = (event - opens[column] + 1) / (closes(column) - opens[column] + 1);
  return xOfColumn(column) + share * columnWidth();
}

// A moment stands between the event before it and the event after it.
function xOfMoment(count) {
  const column = columnOf[count];
  const left = count === opens[column] ? xOfColumn(column) : xOfEvent(count - 1);
  const right = count < eventCount ? xOfEvent(count) : xOfColumn(column + 1);
  return (left + right) / 2;
}

const xNow = () => xOfMoment(countNow());

// What still runs where the checking stops is drawn up to there; what was never checked, up to the end of the log.
const xOfStop = () => broken ? xOfEvent(data.done) : xOfColumn(columnCount);
const xOfEnd = firing => isRunning(firing) ? xOfStop() : xOfEvent(firing.endEvent);
const xOfGhostEnd = ghost => ghost.endEvent < 0 ? xOfColumn(columnCount) : xOfEvent(ghost.endEvent);
