/* What runs in the worker of the package: it answers one question after the other. */

import { ofModule } from "../auditor/loaded.js";
import { isOutOfMemory } from "../auditor/statuses.js";
import { Library } from "./library.js";
import { takenLater, withEach, withWanted } from "./sources.js";
import type { Question, Sent, SentFile, Told } from "./away.js";

let library: Library | undefined;

const bytesOf = async (file: SentFile): Promise<Uint8Array> =>
  file instanceof Uint8Array ? file : takenLater(file, "a file").bytes();

async function answerTo(question: Question): Promise<unknown> {
  if ("name" in question) return library!.answer(question.name, await withEach(question.given, bytesOf));
  return library!.folder(await withWanted(question.folder, () => true, async file => {
    const bytes = await bytesOf(file);
    return () => bytes;
  }));
}

function errorOf(error: unknown): NonNullable<Told["error"]> {
  const { name, message } = error instanceof Error ? error : { name: "Error", message: `${error}` };
  return { name, message, isMemory: isOutOfMemory(error) };
}

onmessage = async ({ data }: MessageEvent<Sent>) => {
  if ("module" in data) {
    library = new Library(ofModule(data.module));
    return;
  }
  const told = await answerTo(data).then(answer => ({ answer }), error => ({ error: errorOf(error) }));
  postMessage({ id: data.id, ...told });
};
