/* The auditor for Node, as index.ts has it: by native code where the package has it for this machine, and else by the module. */

import { OutOfMemory } from "../auditor/statuses.js";
import { loadedAddon } from "./addon.js";
import { Here, Later } from "./answering.js";
import { AtHand } from "./at_hand.js";
import { Library } from "./library.js";
import { loadedModule } from "./module.js";
import type { Auditor } from "./index.js";
import type { AsyncAuditor } from "./later.js";

export { OutOfMemory };

const library = async (): Promise<Library> => new Library(loadedAddon() ?? await loadedModule());

export const auditor = async (): Promise<Auditor> => new AtHand(await library());

export const asyncAuditor = async (): Promise<AsyncAuditor> => new Later(new Here(await library()));
