/* Looks at a page as it stands: what overlaps, what is cut off, what is too pale, what has no name. Each function gives sentences. */
(() => {
  const all = (query, of) => Array.from((of || document).querySelectorAll(query));
  const isSeen = e => e.checkVisibility();

  /* ---- colours */

  function channels(colour) {
    const found = /^rgba?\(([\d.]+), ([\d.]+), ([\d.]+)(?:, ([\d.]+))?\)$/.exec(colour);
    if (!found) throw new Error('no colour that the audit knows: ' + colour);
    return { rgb: found.slice(1, 4).map(Number), alpha: found[4] === undefined ? 1 : +found[4] };
  }

  function light(rgb) {
    const [r, g, b] = rgb.map(v => v / 255).map(v => (v <= 0.03928 ? v / 12.92 : ((v + 0.055) / 1.055) ** 2.4));
    return 0.2126 * r + 0.7152 * g + 0.0722 * b;
  }

  function contrastOf(one, other) {
    const [dark, bright] = [light(one), light(other)].sort((a, b) => a - b);
    return (bright + 0.05) / (dark + 0.05);
  }

  function groundOf(e) {
    for (; e; e = e.parentElement) {
      const { rgb, alpha } = channels(getComputedStyle(e).backgroundColor);
      if (alpha > 0.99) return rgb;
    }
    return [255, 255, 255];
  }

  /* a bar that is dimmed because another is chosen is not to be read now */
  function isDimmed(e) {
    for (; e instanceof Element; e = e.parentElement) if (+getComputedStyle(e).opacity < 1) return true;
    return false;
  }

  /* what lies under a label of a picture: its own halo, or the last shape painted before it that its middle is in */
  function underLabel(label) {
    const style = getComputedStyle(label);
    if (style.stroke !== 'none' && parseFloat(style.strokeWidth) >= 3) return channels(style.stroke).rgb;
    const box = label.getBoundingClientRect(), x = (box.left + box.right) / 2, y = (box.top + box.bottom) / 2;
    let under = null;
    for (const shape of all('rect, ellipse, circle, path, polygon', label.closest('svg'))) {
      const isBefore = shape.compareDocumentPosition(label) & Node.DOCUMENT_POSITION_FOLLOWING;
      if (!isBefore || shape.closest('defs, clipPath')) continue;
      const its = shape.getBoundingClientRect(), look = getComputedStyle(shape);
      const isIn = its.left <= x && x <= its.right && its.top <= y && y <= its.bottom;
      if (isIn && look.fill !== 'none' && +look.fillOpacity > 0.5 && !isDimmed(shape)) under = channels(look.fill).rgb;
    }
    return under || groundOf(label);
  }

  const NOT_READ = 'script, noscript, style, title, :disabled';
  const SHAPES = [['.fault-line', 'stroke'], ['.owedmark path, .owedmark rect', 'fill'], ['.firing .must', 'fill'],
    ['.firing .edge', 'stroke'], ['.cause-line', 'stroke'], ['.ghost', 'stroke'], ['.cursor-line', 'stroke']];

  /* cells of one kind look alike, and there may be thousands */
  const kindOf = e => [e, e.parentElement, e.parentElement.parentElement].map(one => one && one.tagName + '.' + one.className).join(' ');

  /* 4.5 for words, 3 for shapes. Each pair of colours is told once. */
  function contrast() {
    const bad = [], seen = new Set(), nodes = document.createTreeWalker(document.body, NodeFilter.SHOW_TEXT);
    for (let node = nodes.nextNode(); node; node = nodes.nextNode()) {
      const e = node.parentElement, isLabel = !!e.closest('svg');
      if (!isLabel && seen.has(kindOf(e)) || !node.textContent.trim() || e.closest(NOT_READ) || !isSeen(e) || isDimmed(e)) continue;
      seen.add(kindOf(e));
      const style = getComputedStyle(e);
      const ink = isLabel ? style.fill : style.color, ground = isLabel ? underLabel(e.closest('text') || e) : groundOf(e);
      if (seen.has(ink + ground)) continue;
      seen.add(ink + ground);
      const ratio = contrastOf(channels(ink).rgb, ground);
      if (ratio < 4.5) bad.push('contrast ' + ratio.toFixed(2) + ' of: ' + node.textContent.trim().slice(0, 40));
    }
    for (const [query, side] of SHAPES) {
      const shape = all(query, document.getElementById('lanes') || document).find(e => !isDimmed(e));
      const ratio = shape ? contrastOf(channels(getComputedStyle(shape)[side]).rgb, groundOf(shape)) : 3;
      if (ratio < 3) bad.push('contrast ' + ratio.toFixed(2) + ' of the shape ' + query);
    }
    return bad;
  }

  /* ---- room */

  function overflow() {
    const wide = document.documentElement.scrollWidth;
    return wide > innerWidth + 1 ? ['the page is wider than its window: ' + wide + ' > ' + innerWidth] : [];
  }

  /* labels of the pictures: none over another, none cut off by the picture's edge; lines of one label may stand close */
  function labels() {
    const bad = [], words = e => (e.firstChild.nodeType === Node.TEXT_NODE ? e.firstChild : e).textContent;
    for (const picture of all('#lanes svg, svg.net')) {
      const frame = picture.getBoundingClientRect();
      const texts = all('text', picture).filter(e => e.textContent.trim() && isSeen(e)).map(e => [e, e.getBoundingClientRect()]);
      texts.forEach(([one, a], at) => {
        if (a.left < frame.left - 1 || a.right > frame.right + 1) bad.push('a label is cut off: ' + words(one));
        for (const [other, b] of texts.slice(at + 1)) {
          const across = Math.min(a.right, b.right) - Math.max(a.left, b.left);
          const down = Math.min(a.bottom, b.bottom) - Math.max(a.top, b.top);
          const close = one.parentNode === other.parentNode ? 5 : 4;
          if (across > 1 && down > close) bad.push('labels overlap: ' + words(one) + ' / ' + words(other));
        }
      });
    }
    return bad;
  }

  /* ---- screen readers */

  const NAMED = 'button, input, summary, [role=button], [role=slider], [role=img], [role=region], svg[role=group]';
  const listed = e => (e.getAttribute('aria-labelledby') || e.getAttribute('for') || '').split(' ').filter(Boolean);

  function nameOf(e) {
    const labels = listed(e).map(id => document.getElementById(id)).concat(...(e.labels || []));
    return e.getAttribute('aria-label') || labels.map(label => (label ? label.textContent : '')).join(' ') || e.textContent;
  }

  function names() {
    const bad = [], ids = all('[id]').map(e => e.id), stops = all('.firing[tabindex="0"]').length;
    for (const e of all(NAMED).filter(isSeen)) if (!nameOf(e).trim()) bad.push('no name: ' + e.outerHTML.slice(0, 80));
    for (const id of new Set(ids)) if (ids.indexOf(id) !== ids.lastIndexOf(id)) bad.push('an id twice: ' + id);
    for (const id of all('[aria-labelledby], [for]').flatMap(listed)) if (!ids.includes(id)) bad.push('named by what is not there: ' + id);
    for (const e of all('table')) if (!e.querySelector('th[scope]')) bad.push('a table without headers: ' + e.textContent.slice(0, 40));
    if (all('h1').length !== 1 || !document.documentElement.lang) bad.push('not one h1, or no language');
    if (all('.firing').length && stops !== 1) bad.push(stops + ' bars are tab stops');
    for (const e of all('[role=slider]')) {
      const lacking = ['valuemin', 'valuemax', 'valuenow', 'valuetext'].filter(part => !e.hasAttribute('aria-' + part));
      if (lacking.length && isSeen(e)) bad.push('a slider without ' + lacking);
    }
    return bad;
  }

  window.audit = { contrast, overflow, labels, names };
})();
