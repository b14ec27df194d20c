/* What the page and the worker that makes election files of sheets say to each other. */

import type { Fault } from "../sheets/faults.js";
import type { ListedProject } from "../sheets/projects.js";

/** Asks to read two sheets. It has to be the first. */
export interface SheetsOrder {
  readonly asks: "sheets";
  readonly files: readonly File[];
}

/** Asks for the election file of the sheets that were read. `funded` has ids, where the sheets don't have them. */
export interface ElectionOrder {
  readonly asks: "election";
  readonly limit: string;
  readonly funded?: ReadonlySet<string>;
}

export type SheetOrder = SheetsOrder | ElectionOrder;

/** What two sheets say. The sheet of projects is that of the two at `place`; of many faults the first are told. */
export interface SheetsTold {
  readonly tells: "sheets";
  readonly place: number;
  readonly projects: readonly ListedProject[];
  readonly voters: number;
  readonly hasSelected: boolean;
  readonly faults: readonly Fault[];
  readonly faultCount: number;
}

/** Which sheet is that of the projects can't be told. */
export interface AlikeTold {
  readonly tells: "alike";
}

export interface ElectionTold {
  readonly tells: "election";
  readonly file: Blob;
}

export interface SheetsFailed {
  readonly tells: "failed";
  readonly why: "unreadable" | "memory" | "trap";
  readonly file?: string;
}

export type SheetTold = SheetsTold | AlikeTold | ElectionTold | SheetsFailed;
