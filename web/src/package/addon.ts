/* The addon with native code that the package has for this machine, where it has one. */

import { createRequire } from "node:module";
import process from "node:process";
import { ofAddon } from "./native.js";
import type { Load } from "../auditor/loaded.js";

/** Where this script is, and from there the folder of the addons. packaging/javascript says both. */
declare const HERE: string, ADDONS: string;

/** What runs addons of Node too, and is another program. */
const OTHERS = ["bun", "deno", "electron"];

/** The library of the addon. There is none for most machines, nor beside a bundle. Whatever stands in its way, there is the module. */
export function loadedAddon(): Load | undefined {
  if (OTHERS.some(name => name in process.versions)) return undefined;
  try {
    return ofAddon(createRequire(HERE)(`${ADDONS}/pbaudit-${process.platform}-${process.arch}.node`));
  } catch {
    return undefined;
  }
}
