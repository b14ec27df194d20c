"""The scripts by which tests/test_pages.py asks a page in a browser what it shows."""

# What a page has that doesn't fit: elements that reach out of the window, or have more inside than they show.
TOO_WIDE = """
return [...document.body.querySelectorAll('*')].filter(element => {
  const box = element.getBoundingClientRect();
  const hidden = element.closest('thead') && getComputedStyle(element.closest('thead')).position === 'absolute';
  const inline = getComputedStyle(element).display === 'inline';
  return !hidden && (box.left < -0.5 || box.right > innerWidth + 0.5
                     || (!inline && element.scrollWidth > element.clientWidth + 1));
}).map(element => element.outerHTML.slice(0, 200)).concat(
  document.documentElement.scrollWidth > innerWidth ? ['the page is ' + document.documentElement.scrollWidth] : []);
"""
# The bars with the ids in whose rows they stand: the width of the room and of the part, where the mark is, whether the
# bar says that it is cut, and its label.
BARS = """
return [...document.querySelectorAll('.bar')].map(bar => {
  const row = bar.closest('tr'), room = bar.getBoundingClientRect();
  const mark = bar.querySelector('.mark'), box = mark && mark.getBoundingClientRect();
  return {id: row && row.querySelector('.id bdi').textContent, room: room.width,
          name: row && (row.querySelector('.name') || row.querySelector('.id bdi')).textContent,
          mark: mark && box.left + box.width / 2 - room.left, cut: !!bar.querySelector('.cut'),
          part: bar.querySelector('.part').getBoundingClientRect().width, label: bar.getAttribute('aria-label')};
});
"""
COLOURS = """
const parse = colour => colour.match(/[\\d.]+/g).map(Number);
const light = colour => {
  const [r, g, b] = parse(colour).map(part => part / 255).map(
    part => part <= 0.04045 ? part / 12.92 : ((part + 0.055) / 1.055) ** 2.4);
  return 0.2126 * r + 0.7152 * g + 0.0722 * b + 0.05;
};
const behind = element => {
  for (; element; element = element.parentElement) {
    const colour = getComputedStyle(element).backgroundColor;
    if ((parse(colour)[3] ?? 1) > 0) return colour;
  }
  return 'rgb(255, 255, 255)';
};
const contrast = (one, other) => {
  const two = [light(one), light(other)].sort((a, b) => a - b);
  return two[1] / two[0];
};
"""
# Pieces of text with less contrast to what is behind them than 4.5 to 1.
FAINT = COLOURS + """
return [...document.body.querySelectorAll('*')].filter(element => {
  const own = [...element.childNodes].some(node => node.nodeType === 3 && node.data.trim());
  return own && contrast(getComputedStyle(element).color, behind(element)) < 4.5;
}).map(element => element.outerHTML.slice(0, 200));
"""
# What a reader who can't see the page would miss, by rules that checkers of accessibility have.
UNREADABLE = """
const wrong = [], check = (is_right, what) => is_right || wrong.push(what);
const all = query => [...document.querySelectorAll(query)];
const levels = all('h1, h2, h3, h4, h5, h6').map(head => Number(head.tagName[1]));
check(levels.filter(level => level === 1).length === 1, 'not one h1');
check(levels.every((level, at) => !at || level <= levels[at - 1] + 1), 'a level of heads is left out: ' + levels);
check(all('h1, h2, h3, dt, th').every(head => head.textContent.trim()), 'an empty head');
check(all('main').length === 1 && document.body.firstElementChild.matches('header'), 'landmarks');
check(document.documentElement.lang.length === 2, 'no language');
check(all('[lang]').every(each => /^[a-z]{2}$/.test(each.lang)), 'no code of a language');
check(document.title.trim(), 'no title');
check(!/user-scalable|maximum-scale/.test(document.querySelector('meta[name=viewport]').content), 'no zoom');
check(all('[id]').length === new Set(all('[id]').map(each => each.id)).size, 'an id twice');
check(all('[role=img]').every(each => each.getAttribute('aria-label').trim()), 'a picture without words');
check(all('input').every(each => each.labels.length === 1 && each.labels[0].textContent.trim()), 'an input');
check(all('fieldset').every(each => each.querySelector('legend').textContent.trim()), 'a choice without words');
check(all('dl > div').every(each => each.querySelector('dt') && each.querySelector('dd')), 'a list of terms');
check(all('ul, ol').every(list => [...list.children].every(each => each.matches('li'))), 'a list');
check(all('[aria-hidden] a, [aria-hidden] input').length === 0, 'a hidden input');
for (const table of all('table')) {
  const heads = table.querySelectorAll('thead th').length;
  check(table.getAttribute('role') === 'table' && table.getAttribute('aria-label'), 'a table without a name');
  check([...table.querySelectorAll('tr')].every(row => row.getAttribute('role') === 'row'
        && row.children.length === heads), 'a row of other cells');
  check([...table.querySelectorAll('thead th')].every(each => each.getAttribute('role') === 'columnheader'), 'heads');
  check([...table.querySelectorAll('tbody th')].every(each => each.getAttribute('role') === 'rowheader'), 'row heads');
  check([...table.querySelectorAll('td')].every(each => each.getAttribute('role') === 'cell'), 'cells');
}
return wrong;
"""
# The ids of the unfunded projects from top to bottom, as the style has them.
SEEN_ORDER = """
return [...document.querySelectorAll('.sorted tbody tr')].map(row => [row.getBoundingClientRect().top,
        row.querySelector('.id bdi').textContent]).sort((a, b) => a[0] - b[0]).map(([, id]) => id);
"""
# Elements that a page has no use for.
STRANGE = "return document.querySelectorAll('script, img, iframe, object, a, form, link, b, body style').length"
# Names of others that nothing isolates from the text around them.
LOOSE_NAMES = """
return [...document.querySelectorAll('th .name, .id, h1')].filter(each => !each.querySelector('bdi')
  || each.classList.contains('name') && each.childNodes.length !== 1).length;
"""
# The bars to look at closely, one of each look: the edges of the bar, of its part, and of its mark, and whether the end
# of the part has room enough around it.
LOOKS = """
const edges = element => {
  const box = element.getBoundingClientRect();
  return {left: box.left + scrollX, right: box.right + scrollX, top: box.top + scrollY, bottom: box.bottom + scrollY};
};
const shown = bar => {
  const whole = edges(bar), part = edges(bar.querySelector('.part'));
  const ends = [bar.querySelector('.mark'), bar.querySelector('.cut')].map(each => each && edges(each));
  const is_clear = part.right - whole.left > 30 && whole.right - part.right > 30
    && !(ends[0] && Math.abs(ends[0].left - part.right) < 12);
  return {whole, part, mark: ends[0], is_over: bar.matches('.over'), is_clear};
};
const bars = [...document.querySelectorAll('.bar')].map(shown);
return [[false, false], [false, true], [true, false], [true, true]].map(([is_over, has_mark]) => {
  const alike = bars.filter(bar => bar.is_over === is_over && !!bar.mark === has_mark);
  return alike.find(bar => bar.is_clear) || alike[0];
}).filter(bar => bar);
"""
# Amounts beside which no currency stands, where it should: in sentences and labels behind each, in tiles below it, in
# tables in the head of the column. An amount has decimals, and no percent sign behind it.
BARE_AMOUNTS = """
const currency = arguments[0], bare = [];
const amount = /\\d[.,]\\d+\u2026?(?![\\d\u00a0]*\\s*%)/g;
const without = (text, what) => {
  for (const found of text.matchAll(amount)) {
    const behind = text.slice(found.index + found[0].length).trimStart();
    if (!behind.startsWith(currency)) bare.push(what + ': ' + text.slice(0, 80));
  }
};
for (const each of document.querySelectorAll('main p, main li, main .verdict, main .note')) {
  const own = each.cloneNode(true);
  own.querySelectorAll('.named').forEach(name => name.remove());
  if (!each.querySelector('p, li')) without(own.textContent, 'a sentence');
}
for (const each of document.querySelectorAll('[aria-label]')) without(each.getAttribute('aria-label'), 'a label');
for (const each of document.querySelectorAll('.tiles dd')) {
  if (amount.test(each.textContent) && !each.textContent.endsWith(currency)) bare.push('a tile: ' + each.textContent);
  amount.lastIndex = 0;
}
for (const each of document.querySelectorAll('td.number')) {
  const head = each.closest('table').querySelectorAll('thead th')[each.cellIndex];
  const is_bare = amount.test(each.lastChild.data) && !head.textContent.includes(currency);
  if (is_bare) bare.push('a column: ' + head.textContent);
  amount.lastIndex = 0;
}
return bare;
"""
# What stands on the page without the names of others.
OWN_WORDS = """
const body = document.body.cloneNode(true);
body.querySelectorAll('bdi, code').forEach(each => each.remove());
return body.textContent;
"""
# What has the focus: its class, and the outline of its label with what is behind it.
FOCUS = COLOURS + """
const at = document.activeElement, label = at && at.closest('label');
if (!label) return {at: at ? at.tagName : null};
const style = getComputedStyle(label);
const width = style.outlineStyle === 'none' ? 0 : parseFloat(style.outlineWidth);
return {at: at.className, checked: at.checked, width, contrast: contrast(style.outlineColor, behind(label.parentElement))};
"""
