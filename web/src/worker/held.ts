/* The files of an audit as they are held in a page, by the bytes that were audited. */

import { Sha256 } from "../files/sha256.js";
import { OutOfMemory } from "../auditor/statuses.js";
import type { Auditor } from "../auditor/auditor.js";
import type { Place, Question } from "../auditor/commands.js";
import type { Files, Held } from "./orders.js";

/** What is saved from a page is shown by no browser, whatever it is. */
const TYPE = "application/octet-stream";

/** A link that has these bytes. A browser may have no text that is so long. */
const linkOf = (bytes: Uint8Array): Promise<string> => new Promise((resolve, reject) => {
  const reader = new FileReader();
  reader.onload = () => typeof reader.result === "string" ? resolve(reader.result) : reject(new OutOfMemory());
  reader.onerror = () => reject(new OutOfMemory());
  reader.readAsDataURL(new Blob([bytes], { type: TYPE }));
});

async function fileOf(auditor: Auditor, place: Place, name: string): Promise<Held> {
  const bytes = auditor.bytes(place), sum = new Sha256();
  sum.add(bytes);
  return { name, sum: sum.sum(), link: await linkOf(bytes) };
}

/** The files of a question, under these names. */
export async function heldOf(auditor: Auditor, { files }: Question, names: Files<string>): Promise<Files<Held>> {
  const among = async (role: keyof Files): Promise<Held | null> => {
    const place = files[role], name = names[role];
    return place && name !== null ? fileOf(auditor, place, name) : null;
  };
  const [election, outcome, certificate] = [await among("election"), await among("outcome"), await among("certificate")];
  return { election: election!, outcome, certificate };
}
