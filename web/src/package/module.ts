/* The module, which the package has as text, so that no file is looked for. */

import { ofModule } from "../auditor/loaded.js";
import { MODULE } from "./generated.js";
import type { Load } from "../auditor/loaded.js";

export function moduleBytes(): Uint8Array {
  const text = atob(MODULE), bytes = new Uint8Array(text.length);
  for (let at = 0; at < text.length; at++) bytes[at] = text.charCodeAt(at);
  return bytes;
}

export const compiledModule = (): Promise<WebAssembly.Module> => WebAssembly.compile(moduleBytes());

/** The library as a module, once that is compiled. */
export const loadedModule = async (): Promise<Load> => ofModule(await compiledModule());
