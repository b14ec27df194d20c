/* Elements of the page. All text reaches it as text, and never as markup. */

import { savedAs } from "../files/names.js";
import { formatIn } from "../words/formats.js";

export function element(id: string): HTMLElement {
  const found = document.getElementById(id);
  if (!found) throw new Error(`the page has no element ${id}`);
  return found;
}

/** An element that has to be of a kind. */
export function elementOf<Kind extends HTMLElement>(id: string, kind: new () => Kind): Kind {
  const found = element(id);
  if (!(found instanceof kind)) throw new Error(`the page's element ${id} is of another kind`);
  return found;
}

export const input = (id: string): HTMLInputElement => elementOf(id, HTMLInputElement);

type Property = string | ((event: Event) => void);

/** A new element with what is in it. A function among the properties listens to the event of its name. */
export function make(
  name: string, properties: Readonly<Record<string, Property>> = {}, ...inside: (Node | string)[]
): HTMLElement {
  const made = document.createElement(name);
  for (const [key, value] of Object.entries(properties)) {
    if (typeof value === "function") made.addEventListener(key, value);
    else if (key === "class") made.className = value;
    else if (key === "label") made.setAttribute("aria-label", value);
    else made.setAttribute(key, value);
  }
  made.append(...inside);
  return made;
}

/** A new element of a picture. */
export function makeSvg(
  name: string, attributes: Readonly<Record<string, string>>, ...inside: SVGElement[]
): SVGElement {
  const made = document.createElementNS("http://www.w3.org/2000/svg", name);
  for (const [key, value] of Object.entries(attributes)) made.setAttribute(key, value);
  made.append(...inside);
  return made;
}

/** A button with a word on it, and what it is called where it is read out. */
export const makeButton = (word: string, label: string, click: () => void): HTMLElement =>
  make("button", { type: "button", label, click }, word);

/** A list to choose from. `change` is given the place of what is chosen. */
export function makeChoice(
  label: string, words: readonly string[], chosen: number, change: (place: number) => void,
): HTMLElement {
  const options = words.map((word, at) => make("option", at === chosen ? { selected: "" } : {}, word));
  const select = make("select", { label, autocomplete: "off" }, ...options) as HTMLSelectElement;
  select.addEventListener("change", () => change(select.selectedIndex));
  return select;
}

const KEPT_MILLISECONDS = 60_000;

/** Hands a file to the one who sits there, to be saved. */
export function saveAs(name: string, type: string, ...content: BlobPart[]): void {
  const url = URL.createObjectURL(new Blob(content, { type }));
  const link = make("a", { href: url, download: savedAs(name) });
  document.body.append(link);
  link.click();
  link.remove();
  setTimeout(() => URL.revokeObjectURL(url), KEPT_MILLISECONDS);
}

/** The bytes that an element of the file has as base64. */
export const bytesOf = (holder: Element): Uint8Array =>
  Uint8Array.from(atob((holder.textContent ?? "").trim()), letter => letter.charCodeAt(0));

export function sizeOf(bytes: number, language: string): string {
  const units = ["byte", "kilobyte", "megabyte"];
  const thousands = bytes < 1e3 ? 0 : bytes < 1e6 ? 1 : 2;
  const form: Intl.NumberFormatOptions = {
    style: "unit", unit: units[thousands], unitDisplay: thousands > 0 ? "short" : "long",
    maximumFractionDigits: thousands > 0 ? 1 : 0,
  };
  return formatIn(language, form).format(bytes / 1000 ** thousands);
}

/** Has a list these items. Those that are there already stay where they are, so that little is laid out again. */
function putItems(list: HTMLElement, items: readonly HTMLElement[]): void {
  const kept = new Set<Element>(items);
  for (const old of [...list.children]) if (!kept.has(old)) old.remove();
  items.forEach((item, at) => {
    if (list.children[at] !== item) list.insertBefore(item, list.children[at] ?? null);
  });
}

/** Fills a list again, and leaves the focus where it was among its elements, or else at the list. */
export function refill(list: HTMLElement, items: readonly HTMLElement[]): void {
  const has = document.activeElement, label = has && list.contains(has) ? has.getAttribute("aria-label") : null;
  const likeIt = (): HTMLElement[] => [...list.querySelectorAll<HTMLElement>("button, select")]
    .filter(each => each.getAttribute("aria-label") === label);
  const place = label ? likeIt().findIndex(each => each === has) : 0;
  putItems(list, items);
  if (label && document.activeElement !== has) (likeIt()[place] ?? list).focus({ preventScroll: true });
}

/** Items that are made once for each thing, as long as all else that they show is the same. */
export class Items<Thing extends object> {
  private kept = new Map<Thing, HTMLElement>();
  private beside: readonly unknown[] = [];

  constructor(private readonly make: (thing: Thing) => HTMLElement) {}

  /** The items of these things. `beside` is what they show of other things. */
  of(things: readonly Thing[], beside: readonly unknown[]): HTMLElement[] {
    const isSame = beside.length === this.beside.length && beside.every((each, at) => each === this.beside[at]);
    const old = isSame ? this.kept : new Map<Thing, HTMLElement>();
    this.beside = beside;
    this.kept = new Map(things.map(thing => [thing, old.get(thing) ?? this.make(thing)]));
    return [...this.kept.values()];
  }
}
