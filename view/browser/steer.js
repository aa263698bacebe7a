// The buttons, the slider, the pointer and the keys: what each of them asks show() for.

function drawSteering() {
  const words = momentWords(view.moment);
  const shown = shownColumns();
  dress(byId('cursor'), { max: lastMoment, 'aria-valuetext': words });
  byId('cursor').value = view.moment;
  if (byId('moment').textContent !== words) byId('moment').textContent = words;
  byId('earlier').disabled = view.from <= 0;
  byId('later').disabled = view.from + shown >= columnCount;
  byId('closer').disabled = shown <= Math.min(FEWEST_COLUMNS, columnCount);
  byId('wider').disabled = shown >= mostColumns();
  byId('whole').hidden = mostColumns() < columnCount;
  byId('whole').disabled = shown >= columnCount;
}

function steerButtons() {
  const onClick = (id, press) => byId(id).addEventListener('click', press);
  const page = () => Math.ceil(shownColumns() * 0.6);
  onClick('earlier', () => show({ from: view.from - page() }));
  onClick('later', () => show({ from: view.from + page() }));
  onClick('closer', () => zoomTo(shownColumns() / 1.6));
  onClick('wider', () => zoomTo(Math.max(shownColumns() + 1, shownColumns() * 1.6)));
  onClick('whole', () => zoomTo(columnCount));
  onClick('tofault', lookAtFault);
  onClick('event-back', () => lookAt(view.moment - 1));
  onClick('event-on', () => lookAt(view.moment + 1));
  onClick('tick-back', () => moveByTicks(-1));
  onClick('tick-on', () => moveByTicks(1));
  onClick('empties', () => show({ emptyPlaces: !view.emptyPlaces }));
}

// While the slider has the focus a screen reader tells its value: then the words under it must not be told as well.
function steerSlider() {
  const slider = byId('cursor');
  slider.addEventListener('input', () => lookAt(Number(slider.value)));
  slider.addEventListener('keydown', event => {
    const ticks = { PageUp: 1, PageDown: -1 }[event.key];       // up is on, as for the browser's own sliders
    if (!ticks) return;
    event.preventDefault();
    moveByTicks(ticks);
  });
  slider.addEventListener('focus', () => byId('moment').setAttribute('aria-live', 'off'));
  slider.addEventListener('blur', () => byId('moment').setAttribute('aria-live', 'polite'));
}

// A click on a bar chooses it, anywhere else it leads to the tick of that column.
function steerPicture() {
  const lanes = byId('lanes');
  lanes.addEventListener('click', event => {
    const bar = event.target.closest('.firing');
    if (bar) return choose(choiceOfFiring(firings[bar.dataset.f]));
    const picture = event.target.closest('svg');
    if (!picture || event.target.closest('.owedmark')) return;
    const { left, width } = picture.getBoundingClientRect();
    const x = (event.clientX - left) / width * view.width;
    const column = columnAt(x);
    if (x >= gutter() && column < columnCount) lookAtColumn(column);
  });
  lanes.addEventListener('keydown', pressOnPicture);
  lanes.addEventListener('focusin', event => {
    const bar = event.target.closest('.firing');
    if (!bar) return;
    view.tabStop = Number(bar.dataset.f);       // nothing else changes, so nothing is drawn
    setTabStop(view.tabStop);
  });
}

function pressOnPicture(event) {
  const pressed = event.target.closest('.firing, .owedmark');
  if (!pressed || event.shiftKey) return;
  if (event.key === 'Enter' || event.key === ' ') {
    event.preventDefault();
    pressed.dispatchEvent(new MouseEvent('click', { bubbles: true }));
  } else if (event.key.startsWith('Arrow') && pressed.matches('.firing')) {
    event.preventDefault();
    const neighbour = neighbourOf(pressed, event.key);
    if (neighbour) neighbour.focus();
  }
}

// In the timeline's section, or with the focus nowhere: arrows move by one moment, with Shift by one tick. The slider
// knows the plain arrows by itself, and bars and the overview have a use of their own for them.
function pressAnywhere(event) {
  if (event.defaultPrevented || event.altKey || event.ctrlKey || event.metaKey) return;
  if (event.key === 'Escape' && view.choice) return show({ choice: null });
  const step = { ArrowLeft: -1, ArrowRight: 1 }[event.key];
  const isHere = event.target === document.body || byId('timeline').contains(event.target);
  const isSelecting = event.shiftKey && !getSelection().isCollapsed;      // text, to be copied
  if (!step || !isHere || isSelecting || (event.target === byId('cursor') && !event.shiftKey)) return;
  event.preventDefault();
  if (event.shiftKey) moveByTicks(step); else lookAt(view.moment + step);
}

function steer() {
  steerButtons();
  steerSlider();
  steerPicture();
  steerOverview();
  document.addEventListener('keydown', pressAnywhere);
}
