/* Reads two sheets, away from the page, and makes an election file of them. */

import { electionText, placeOfProjects, readSheets } from "../sheets/election.js";
import { MOST_TOLD } from "../sheets/faults.js";
import type { TwoSheets } from "../sheets/election.js";
import type { ElectionTold, SheetOrder, SheetsFailed, SheetTold } from "./sheet_orders.js";

/** A file can't be read. */
class Unreadable extends Error {}

/** What was read, of which a file can be made. */
let read: TwoSheets | undefined;

const bytesOf = async (file: File): Promise<Uint8Array> =>
  new Uint8Array(await file.arrayBuffer().catch(() => { throw new Unreadable(file.name); }));

async function readFiles(files: readonly File[]): Promise<SheetTold> {
  const sheets = await Promise.all(files.map(bytesOf)), place = placeOfProjects(sheets);
  if (place < 0) return { tells: "alike" };
  read = readSheets(sheets[place], sheets[1 - place]);
  const { projects, votes, hasSelected, faults } = read;
  return {
    tells: "sheets", place, projects, voters: votes.length, hasSelected, faults: faults.slice(0, MOST_TOLD),
    faultCount: faults.length,
  };
}

function made(limit: string, funded: ReadonlySet<string> | undefined): ElectionTold {
  if (!read || read.faults.length > 0) throw new Error("no sheets were read of which a file can be made");
  return { tells: "election", file: new Blob([electionText(read, limit, funded)]) };
}

/** Why there is no answer. */
function failedBy(error: unknown): SheetsFailed {
  if (error instanceof Unreadable) return { tells: "failed", why: "unreadable", file: error.message };
  return { tells: "failed", why: error instanceof RangeError ? "memory" : "trap" };
}

onmessage = async ({ data }: MessageEvent<SheetOrder>) => {
  const answer = async (): Promise<SheetTold> =>
    data.asks === "sheets" ? readFiles(data.files) : made(data.limit, data.funded);
  postMessage(await answer().catch(failedBy));
};
