"""What a look at the page finds: scripts that answer what is wrong on the screen, each an empty list where nothing is."""

UNNAMED = """
const isNamed = each =>
  each.getAttribute('aria-label') || each.textContent.trim() || each.title || (each.labels ?? []).length > 0;
return [...document.querySelectorAll('button, select, input:not([hidden]), iframe')]
  .filter(each => !isNamed(each)).map(each => each.outerHTML);
"""
TOO_WIDE = """
return [...document.querySelectorAll('body *')]
  .filter(each => !each.closest('.unseen') && each.checkVisibility?.() !== false)
  .filter(each => each.getBoundingClientRect().right > innerWidth + 1).map(each => each.outerHTML.slice(0, 200));
"""
# Text with less contrast to what is behind it than 4.5 to 1.
FAINT = """
const parse = colour => colour.match(/[\\d.]+/g).map(Number);
const light = colour => {
  const linear = part => part <= 0.04045 ? part / 12.92 : ((part + 0.055) / 1.055) ** 2.4;
  const [r, g, b] = parse(colour).map(part => linear(part / 255));
  return 0.2126 * r + 0.7152 * g + 0.0722 * b + 0.05;
};
const behind = element => {
  for (; element; element = element.parentElement) {
    const colour = getComputedStyle(element).backgroundColor;
    if ((parse(colour)[3] ?? 1) > 0) return colour;
  }
  return 'rgb(255, 255, 255)';
};
return [...document.body.querySelectorAll('*')].filter(element => {
  const own = [...element.childNodes].some(node => node.nodeType === 3 && node.data.trim());
  const two = [light(getComputedStyle(element).color), light(behind(element))].sort((a, b) => a - b);
  return own && element.checkVisibility?.() !== false && !element.disabled && two[1] / two[0] < 4.5;
}).map(element => element.outerHTML.slice(0, 200));
"""
# What can be pressed and Tab doesn't come to.
FOCUSABLE = """
return [...document.querySelectorAll('button, select, input, summary, a, iframe')]
  .filter(each => each.checkVisibility?.() !== false && !each.hidden && each.tabIndex < 0).map(each => each.outerHTML);
"""
# Words on buttons and in choices that don't fit there. A choice among files is as wide as the list, and cuts long names.
CUT = """
const isCut = choice => {
  const whole = choice.cloneNode(true);
  Object.assign(whole.style, {position: 'absolute', width: 'max-content', maxWidth: 'none'});
  choice.after(whole);
  const width = whole.offsetWidth;
  whole.remove();
  return width > choice.offsetWidth + 1;
};
const isSeen = each => each.checkVisibility?.() !== false;
const choices = [...document.querySelectorAll('#which, #language')].filter(isSeen).filter(isCut);
const words = [...document.querySelectorAll('button, .badge')].filter(isSeen);
return [...choices, ...words.filter(each => each.scrollWidth > each.clientWidth + 1)].map(each => each.outerHTML.slice(0, 200));
"""
# Elements that say nothing in this language.
WORDLESS = """
return [...document.querySelectorAll('[data-word]')].filter(each => !each.textContent).map(each => each.dataset.word);
"""
LOOKS = {"too wide": TOO_WIDE, "faint": FAINT, "without a name": UNNAMED, "out of reach": FOCUSABLE, "cut": CUT,
         "without words": WORDLESS}
# All of them at once.
ALL = "return {" + ", ".join(f"{name!r}: (() => {{ {script} }})()" for name, script in LOOKS.items()) + "};"


def wrong(browser):
    """What is wrong on the screen, by what it is."""
    return {name: found for name, found in browser.ask(ALL).items() if found}
