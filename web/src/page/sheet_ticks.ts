/* Which projects were funded, where the sheets don't say it: somebody ticks them, or leaves it open. */

import { shownName, toldName } from "../files/names.js";
import { grouped } from "../words/formats.js";
import { fill } from "../words/words.js";
import { element, input, make, makeButton } from "./elements.js";
import type { ListedProject } from "../sheets/projects.js";
import type { Words } from "../words/words.js";

/** So many projects are shown at first, and more at each press. */
const AT_ONCE = 100;

export class SheetTicks {
  private readonly ticked = new Set<string>();
  private most = AT_ONCE;

  constructor(private readonly projects: readonly ListedProject[], private words: Words) {
    for (const id of ["sheets-ticked", "sheets-untold"]) {
      input(id).checked = false;
      input(id).onchange = () => this.draw(this.words);
    }
    this.draw(words);
  }

  /** Whether somebody has said if projects are ticked. */
  get isSaid(): boolean {
    return input("sheets-ticked").checked || input("sheets-untold").checked;
  }

  /** The ids that are ticked; undefined where that is left open. */
  get funded(): ReadonlySet<string> | undefined {
    return input("sheets-ticked").checked ? this.ticked : undefined;
  }

  draw(words: Words): void {
    this.words = words;
    const list = element("sheets-projects"), more = element("sheets-more-projects");
    const rest = Math.min(AT_ONCE, this.projects.length - this.most), isTicking = input("sheets-ticked").checked;
    list.hidden = !isTicking;
    list.replaceChildren(...isTicking ? this.projects.slice(0, this.most).map(each => this.itemOf(each)) : []);
    more.hidden = !isTicking || rest <= 0;
    const word = fill(words.showMore, { count: grouped(rest) });
    more.replaceChildren(makeButton(word, word, () => {
      this.most += AT_ONCE;
      this.draw(this.words);
    }));
  }

  private itemOf({ id, name, cost }: ListedProject): HTMLElement {
    const label = fill(this.words.tickProject, { project: toldName(name || id) });
    const box = make("input", { type: "checkbox", autocomplete: "off", label }) as HTMLInputElement;
    box.checked = this.ticked.has(id);
    box.addEventListener("change", () => {
      if (box.checked) this.ticked.add(id);
      else this.ticked.delete(id);
    });
    const number = name ? [" ", make("bdi", { class: "soft" }, shownName(id))] : [];
    const title = make("span", { class: "grows" }, make("bdi", {}, shownName(name || id)), ...number);
    const price = make("span", { class: "soft" }, shownName(cost));
    return make("li", {}, make("label", { class: "grows" }, box, title), price);
  }
}
