// The picture of the net, which Python has drawn, with the tokens and the activities of the moment looked at. Without
// Graphviz there is none.

function drawNet() {
  const count = countNow();
  byId('net-when').textContent = 'at tick ' + columnOf[count] + (isRefused(count) ? ', just before the fault' : '');
  if (!byId('n-p0')) return;
  for (let place = 0; place < placeCount; place++) drawPlace(place, tokensIn(place, view.moment));
  const running = new Set((runsAt(view.moment) || []).map(run => run.activity));
  for (let activity = 0; activity < activityCount; activity++) {
    const { classList } = byId('n-t' + activity);
    classList.toggle('runs', running.has(activity));
    classList.toggle('owes', isOwedNow(activity));
  }
}

function drawPlace(place, count) {
  const drawn = byId('n-p' + place);
  drawn.classList.toggle('held', count > 0);
  const dots = count <= 4 ? '\u25cf'.repeat(count) : count + ' \u25cf';
  const text = drawn.querySelector('.tokens');
  if (text.textContent !== dots) text.textContent = dots;       // a text that stays need not be laid out again
}

// A wide net scrolls within its box. Where what is looked for can be seen already, nothing moves.
function scrollNet() {
  const node = document.querySelector('svg.net .owes') || document.querySelector('svg.net .runs');
  const box = node && node.closest('.scroll');
  if (!box || box.scrollWidth <= box.clientWidth) return;
  const seen = box.getBoundingClientRect();
  const wanted = node.getBoundingClientRect();
  if (wanted.left >= seen.left && wanted.right <= seen.right) return;
  box.scrollLeft += wanted.left + wanted.width / 2 - seen.left - seen.width / 2;
}
