/* What the page shows while it works, and what it has read out. */

import { fill } from "../words/words.js";
import { element, elementOf } from "./elements.js";
import type { Step } from "../worker/orders.js";
import type { Words } from "../words/words.js";

const bar = (): HTMLProgressElement => elementOf("bar", HTMLProgressElement);

export function speak(text: string): void {
  element("spoken").textContent = text;
}

function fillBar(part: number | undefined): void {
  if (part === undefined) bar().removeAttribute("value");
  else bar().value = part;
}

/** Shows what is worked on, and which part of all is done, where that is known. */
export function showWork(text: string, part?: number): void {
  element("work").hidden = false;
  element("doing").textContent = text;
  fillBar(part);
}

export function hideWork(): void {
  element("work").hidden = true;
}

/** Shows how far the audit of a file is. */
export function showStep(words: Words, step: Step, file: string): void {
  if (step.tells === "ready") return;
  element("doing").textContent = fill(step.tells === "reading" ? words.reading : words.checking, { file });
  fillBar(step.tells === "reading" ? step.done / (step.all || 1) : undefined);
}
