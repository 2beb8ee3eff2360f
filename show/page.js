// Moves the page to an event: the rows around it, and each cell as it stands after it. All that is drawn was drawn before; this only chooses.
'use strict';
(() => {
  const data = JSON.parse(document.getElementById('data').textContent);
  const by = (id) => document.getElementById(id);
  const slider = by('event'), said = by('said'), rows = document.querySelector('.rows'), sequence = document.querySelector('svg.sequence');
  const count = data.rows.length, WINDOW = 200, LONG = 80;
  const controls = document.querySelector('.controls'), box = document.querySelector('.events'), heads = document.querySelector('.heads');
  const calm = matchMedia('(prefers-reduced-motion: reduce)');
  const places = data.cells.map(() => []);
  let first = 0, last = rows.children.length - 1, now = -1;

  // The last value of a cell that came at event n or before: cells are lists of events and values in turn.
  const value = (cell, n) => {
    let low = 0, high = cell.length / 2 - 1;
    while (low < high) {
      const middle = (low + high + 1) >> 1;
      if (cell[2 * middle] <= n) low = middle; else high = middle - 1;
    }
    return data.texts[cell[2 * low + 1]];
  };
  const shown = [];
  for (const place of document.querySelectorAll('[data-c]')) places[place.dataset.c].push(place);

  // A tree ends below its last part that is there at the moment.
  const trees = [...document.querySelectorAll('svg.tree')].map((tree) => [tree, [...tree.children].filter((it) => ['g', 'text'].includes(it.tagName))]);
  const trim = ([tree, parts]) => {
    const last = parts.findLast((it) => !it.classList.contains('absent')).getBBox();
    tree.setAttribute('height', Math.ceil(last.y + last.height) + 4);
  };

  const fill = (n) => {
    data.cells.forEach((cell, number) => {
      const text = value(cell, n);
      if (shown[number] === text) return;
      shown[number] = text;
      for (const place of places[number]) {
        const part = place.dataset.part === undefined ? text : text.split('|')[place.dataset.part];
        if (place.tagName === 'g') place.setAttribute('class', place.getAttribute('class').split(' ')[0] + ' ' + part);
        else place.textContent = part;
      }
    });
    for (const tree of trees) trim(tree);
    const x = (100 * (n + 1.5) / (count + 1)).toFixed(3) + '%';
    for (const line of document.querySelectorAll('.nowline')) { line.setAttribute('x1', x); line.setAttribute('x2', x); }
  };

  const draw = (from) => {
    first = Math.max(0, Math.min(from, count - WINDOW));
    last = Math.min(first + WINDOW, count) - 1;
    let y = 0, text = '';
    for (let n = first; n <= last; n++) {
      text += `<g class="row" role="listitem" data-n="${n}" transform="translate(0,${y})">${data.rows[n][1]}</g>`;
      y += data.rows[n][0];
    }
    rows.innerHTML = text;
    sequence.setAttribute('height', y + 6);
    by('window').textContent = `Events ${first.toLocaleString('en')} to ${last.toLocaleString('en')} of ${count.toLocaleString('en')} are drawn.`;
  };

  // Other parts stick below the slider.
  const settle = () => document.documentElement.style.setProperty('--controls', controls.offsetHeight + 'px');

  // The sentence of an event. Where it is long, it is told without its details, which stand in the row.
  const brief = (row, words) => {
    if (words.length <= LONG) return words;
    const main = [...row.querySelectorAll('text.said')].map((line) => line.textContent).join(' ');
    return words.slice(0, words.indexOf(': ') + 2) + main;
  };

  const go = (n, scroll) => {
    n = Math.max(0, Math.min(count - 1, n));
    if (n === now) return;
    now = n;
    if (n < first || n > last) draw(n - WINDOW / 2);
    for (const row of rows.querySelectorAll('.now')) row.setAttribute('class', 'row');
    const row = rows.children[n - first];
    row.setAttribute('class', 'row now');
    fill(n);
    const words = row.querySelector('title').textContent;
    said.textContent = brief(row, words);
    settle();
    slider.value = n;
    slider.setAttribute('aria-valuetext', words);
    if (scroll) show(row);
  };

  // Brings a row into sight: in a narrow window within the box of the events, and else within the window.
  const show = (row) => {
    const place = row.getBoundingClientRect(), frame = box.getBoundingClientRect();
    const boxed = getComputedStyle(box).overflowY === 'auto';
    const top = (boxed ? frame.top : controls.offsetHeight) + heads.offsetHeight, bottom = boxed ? frame.bottom : innerHeight - 20;
    if (place.top >= top && place.bottom <= bottom) return;
    const behavior = calm.matches || count > WINDOW ? 'auto' : 'smooth';
    (boxed ? box : window).scrollBy({ top: (place.top + place.bottom - top - bottom) / 2, behavior });
  };

  slider.addEventListener('input', () => go(Number(slider.value), true));
  by('before').addEventListener('click', () => go(now - 1, true));
  by('after').addEventListener('click', () => go(now + 1, true));
  addEventListener('keydown', (key) => {
    if (key.target === slider || key.ctrlKey || key.metaKey || key.altKey) return;
    const to = { ArrowLeft: now - 1, ArrowRight: now + 1, Home: 0, End: count - 1 }[key.key];
    if (to === undefined) return;
    key.preventDefault();
    go(to, true);
  });
  sequence.addEventListener('click', (click) => {
    const row = click.target.closest('.row');
    if (row) go(Number(row.dataset.n), false);
  });
  for (const money of document.querySelectorAll('svg.money')) {
    money.addEventListener('click', (click) => {
      const box = money.getBoundingClientRect();
      go(Math.floor((click.clientX - box.left) / box.width * (count + 1)) - 1, true);
    });
  }
  addEventListener('resize', settle);
  document.documentElement.classList.remove('noscript');
  document.querySelector('.legend').open = innerWidth >= 960;
  go(0, false);
})();
