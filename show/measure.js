// Run by show/test in a page: which texts overlap, which are cut, and whether the page is wider than its window.
(() => {
  const style = document.createElement('style');
  // everything is laid out at once: nothing sticks, and nothing has to be scrolled in a part of the page
  style.textContent = '.controls, .heads, .events, .state { position: static !important; max-height: none !important; overflow: visible !important }';
  document.head.append(style);
  const faults = [], texts = [];
  const add = (box, text, holder) => {
    if (box.width > 0.5 && box.height > 0.5) texts.push({ left: box.left, right: box.right, top: box.top + box.height * 0.14, bottom: box.bottom - box.height * 0.14, text, holder });
  };
  const visible = (it) => it.checkVisibility({ visibilityProperty: true, opacityProperty: true });
  for (const text of document.querySelectorAll('svg text')) if (visible(text) && text.textContent.trim()) add(text.getBoundingClientRect(), text.textContent, text);
  const walker = document.createTreeWalker(document.body, NodeFilter.SHOW_TEXT);
  for (let node = walker.nextNode(); node; node = walker.nextNode()) {
    const holder = node.parentElement;
    if (!node.data.trim() || holder.closest('svg, script, style, noscript') || !visible(holder)) continue;
    const range = document.createRange();
    range.selectNodeContents(node);
    for (const box of range.getClientRects()) add(box, node.data, holder);
  }
  // the boxes that cut what is in them
  const boxes = new Map();
  const boxOf = (it) => {
    if (!boxes.has(it)) {
      const cuts = it.tagName === 'svg' || ['hidden', 'clip', 'auto', 'scroll'].includes(getComputedStyle(it).overflowX);
      boxes.set(it, cuts ? it.getBoundingClientRect() : null);
    }
    return boxes.get(it);
  };
  for (const it of texts) {
    if (it.left < -0.5 || it.right > innerWidth + 0.5) faults.push(`beyond the window: ${it.text}`);
    for (let up = it.holder; up && up !== document.body; up = up.parentElement) {
      const box = boxOf(up);
      if (!box) continue;
      if (it.left < box.left - 0.5 || it.right > box.right + 0.5 || it.top < box.top - 0.5 || it.bottom > box.bottom + 0.5) faults.push(`cut: ${it.text}`);
    }
  }
  texts.sort((a, b) => a.top - b.top);
  texts.forEach((it, number) => {
    for (let next = number + 1; next < texts.length && texts[next].top < it.bottom; next++) {
      const other = texts[next];
      const wide = Math.min(it.right, other.right) - Math.max(it.left, other.left);
      const high = Math.min(it.bottom, other.bottom) - Math.max(it.top, other.top);
      if (wide > 1 && high > 1) faults.push(`overlap: ${it.text} / ${other.text}`);
    }
  });
  if (document.documentElement.scrollWidth > innerWidth) faults.push(`the page is ${document.documentElement.scrollWidth} pixels wide`);
  const small = [...new Set(texts.map((it) => parseFloat(getComputedStyle(it.holder).fontSize)))].filter((it) => it < 12);
  if (small.length) faults.push(`letters of ${small} pixels`);
  style.remove();
  return { texts: texts.length, faults };
})()
