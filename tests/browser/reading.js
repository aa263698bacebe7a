/* Reads a page as a person would: its words, and where things stand on the screen. Nothing here knows what is right. */
(() => {
  const by = id => document.getElementById(id);
  /* a name from right to left is set apart by two signs that are not seen */
  const plain = words => words.replace(/[\u2068\u2069]/g, '');
  const text = e => (e ? plain(e.textContent).replace(/\s+/g, ' ').trim() : null);
  const parts = e => Array.from(e.childNodes, text).filter(Boolean);
  const all = (query, of) => Array.from((of || document).querySelectorAll(query));
  const lines = e => all('li', e).map(text);
  const row = tr => Array.from(tr.cells, text);
  const isSeen = e => e.checkVisibility();

  /* ---- words */

  function words() {
    const cursor = by('cursor');
    return {
      moment: text(by('moment')), spoken: plain(cursor.getAttribute('aria-valuetext')), value: +cursor.value, most: +cursor.max,
      stepHead: text(by('step-h')),
      step: all('li', by('step')).map(li => ({ parts: parts(li), sort: li.className })),
      owed: lines(by('owed')), owedText: text(by('owed')),
      marks: all('tbody tr', by('marks')).map(place),
      netWhen: text(by('net-when')),
      places: all('svg.net .place').map(g => [g.id, text(g.querySelector('.tokens')), g.classList.contains('held')]),
      activities: all('svg.net .activity').map(g => [g.id, g.classList.contains('runs'), g.classList.contains('owes')]),
    };
  }

  const place = tr => ({ name: text(tr.querySelector('th')), tokens: text(tr.querySelector('td')), made: lines(tr) });

  const last = 'section[aria-labelledby="last-h"]';
  const headline = () => ({
    title: text(document.querySelector('h1')), why: text(document.querySelector('.verdict p')),
    sort: document.querySelector('.verdict').className, tab: document.title, facts: all('.facts div').map(parts),
    story: all('.story li').map(li => [li.className, ...parts(li)]),
    last: text(document.querySelector(last)), lastRows: all(last + ' tbody tr').map(row),
    events: all('#words tbody tr').map(row), net: all('#net-table tbody tr').map(row),
    netTitles: all('svg.net .place, svg.net .activity').map(g => [g.id, titled(g)]),
  });

  /* the panel on what is chosen: its heading, and the lines under each of its own headings */
  function why() {
    const told = { head: text(by('why-h')), '': [] };
    let part = '';
    for (const e of by('why').children) {
      if (e.tagName === 'H3') told[part = text(e)] = [];
      else if (e.querySelector('table')) told[part].push(...all('tbody tr', e).map(row));
      else told[part].push(...(e.tagName === 'UL' ? lines(e) : [text(e)]));
    }
    return told;
  }

  /* ---- places on the screen, as left, right, top, bottom */

  const box = e => { const r = e.getBoundingClientRect(); return [r.left, r.right, r.top, r.bottom]; };
  const told = e => plain(e.getAttribute('aria-label'));
  const titled = e => { const title = e.querySelector('title'); return title ? plain(title.textContent) : ''; };

  function picture() {
    const svg = document.querySelector('#lanes svg');
    const boxes = query => all(query, svg).map(box);
    const one = query => boxes(query)[0] || null;
    return {
      svg: box(svg), label: told(svg),
      axis: all('.axis', svg).map(e => [text(e), ...box(e)]),
      columnLines: boxes('.col-line').map(line => line[0]),
      lanes: all('.lane-name', svg).map(e => [plain(e.childNodes[0].textContent), titled(e), ...box(e)]),
      laneLines: boxes('.lane-line'),
      bars: all('.firing', svg).map(g => ({ label: told(g), box: box(g.querySelector('.edge')), must: all('.must', g).map(box) })),
      rooms: boxes('.room'),
      owed: all('.owedmark', svg).map(g => [told(g), ...box(g.querySelector('path, rect'))]),
      ghosts: all('.ghost', svg).map(e => [e.tagName, titled(e), ...box(e)]),
      fault: one('.fault-line'), flag: one('.fault-flag'), unchecked: one('.unchecked'),
      cursor: one('.cursor-line'), here: one('.column-here'), borders: boxes('.border-line').map(line => line[0]),
    };
  }

  /* the lines from makers to takers: x and y of both ends, and whether it is a dashed one */
  function causeLines() {
    return all('#lanes .cause-line').map(line => {
      const end = at => { const p = line.getPointAtLength(at).matrixTransform(line.getScreenCTM()); return [p.x, p.y]; };
      return [...end(0), ...end(line.getTotalLength()), line.classList.contains('side')];
    });
  }

  /* the strip of the whole log, over the picture */
  function strip() {
    const svg = document.querySelector('#overview svg'), one = query => { const e = svg.querySelector(query); return e && box(e); };
    return { svg: box(svg), frame: one('.strip-frame'), fault: one('.fault-line') };
  }

  /* the slider moved by hand to a moment, as a script can do it */
  function move(to) {
    const cursor = by('cursor');
    cursor.value = to;
    cursor.dispatchEvent(new Event('input', { bubbles: true }));
  }

  const firings = () => all('#firings-table tbody tr').map(row);
  const rowsSeen = query => all(query).filter(isSeen).map(row);
  window.reading = { words, headline, why, picture, causeLines, strip, move, firings, rowsSeen };
})();
