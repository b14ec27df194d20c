/* Audits, away from the page, one after the other: each reads its files into the module's memory, asks, and tells how it
   went. */

import { Auditor } from "../auditor/auditor.js";
import { ofModule } from "../auditor/loaded.js";
import { isOutOfMemory } from "../auditor/statuses.js";
import { Sha256 } from "../files/sha256.js";
import { Audit } from "./audit.js";
import { heldOf } from "./held.js";
import { Ahead, load, PIECE, piecesOf, Unreadable } from "./reading.js";
import type { Place, Question } from "../auditor/commands.js";
import type { Kind } from "../auditor/kinds.js";
import type { Asked, Beginning, Ending, Files, KindsOrder, Message, Order, Sent, SumsOrder } from "./orders.js";

/** Of so many files the fronts are read together. */
const AT_ONCE = 64;
/** Of a longer file this much is looked at to tell its kind, and so much at first, which nearly always tells. */
const FRONT = 1 << 20, GLANCE = 1 << 14;

/** The files that were sent, by their numbers. */
const sent: File[] = [];
const ahead = new Ahead();

const tell = (message: Message): void => postMessage(message);

/** How many bytes are read. Of more than a piece it is told how far it is. */
const sizeOf = ({ election, outcome, certificate }: Files): number =>
  election.size + (outcome?.size ?? 0) + (certificate?.size ?? 0);

const listOf = (files: Files | undefined): File[] =>
  files ? [files.election, files.outcome, files.certificate].filter((file): file is File => file !== null) : [];

async function questionOf(auditor: Auditor, order: Order): Promise<Question> {
  const { election, outcome, certificate } = order.files, all = sizeOf(order.files);
  let done = 0, told = 0;
  const tellRead = (bytes: number): void => {
    done += bytes;
    if (all <= PIECE || (done < told + PIECE && done < all)) return;
    told = done;
    tell({ tells: "reading", done, all });
  };
  const read = (file: File | null): Promise<Place | undefined> | undefined =>
    file ? load(auditor, file, ahead, tellRead) : undefined;
  const { savedAs } = order;
  const nameOf = (role: keyof Files): Place => auditor.putText(savedAs?.[role] ?? order.files[role]?.name ?? "");
  // Together they are read sooner than one after the other.
  const [first, second, third] = await Promise.all([read(election), read(outcome), read(certificate)]);
  return {
    files: { election: first, outcome: second, certificate: third },
    names: { election: nameOf("election"), outcome: nameOf("outcome"), certificate: nameOf("certificate") },
    mode: order.mode,
    measure: "cost",
    language: auditor.putText(order.language),
  };
}

async function audit(auditor: Auditor, order: Order): Promise<Ending> {
  const asked = await questionOf(auditor, order);
  ahead.read(listOf(order.ahead));
  if (sizeOf(order.files) > PIECE) tell({ tells: "checking" });
  const ending = new Audit(auditor, order, asked, tell).ending();
  if (!order.savedAs || ending.tells !== "answer") return ending;
  return { ...ending, held: await heldOf(auditor, asked, order.savedAs) };
}

/** The first bytes of a file, or none of one that can't be read. A slice takes a browser longer than a small file whole. */
async function frontOf(file: File, most: number): Promise<Uint8Array> {
  const part = file.size > Math.max(most, FRONT) ? file.slice(0, most) : file;
  return new Uint8Array(await part.arrayBuffer().catch(() => new ArrayBuffer(0))).subarray(0, most);
}

/** What each file is, mostly by its first bytes alone. One that can't be read is of no kind. */
async function kindsOf(auditor: Auditor, { list }: KindsOrder): Promise<Ending> {
  const place = auditor.room(FRONT), kinds: Kind[] = [];
  const kindOf = (bytes: Uint8Array): Kind => {
    auditor.bytes(place).set(bytes);
    return auditor.kindOf({ at: place.at, length: BigInt(bytes.length) });
  };
  for (let at = 0; at < list.length; at += AT_ONCE) {
    const files = list.slice(at, at + AT_ONCE), fronts = await Promise.all(files.map(file => frontOf(file, GLANCE)));
    for (const [number, front] of fronts.entries()) {
      const kind = kindOf(front), isMore = kind === "unknown" && files[number].size > GLANCE;
      kinds.push(isMore ? kindOf(await frontOf(files[number], FRONT)) : kind);
    }
  }
  return { tells: "kinds", kinds };
}

/** The SHA-256 of each file, or nothing of one that can't be read. */
async function sumsOf({ list }: SumsOrder): Promise<Ending> {
  const sumOfFile = async (file: File): Promise<string> => {
    const sum = new Sha256();
    for await (const piece of piecesOf(file)) sum.add(piece);
    return sum.sum();
  };
  const sums: string[] = [];
  for (const file of list) sums.push(await sumOfFile(file).catch(() => ""));
  return { tells: "sums", sums };
}

/** Why there is no answer. */
function nothingBy(error: unknown): Ending {
  if (error instanceof Unreadable) return { tells: "nothing", why: "unreadable", file: error.message };
  return { tells: "nothing", why: isOutOfMemory(error) ? "memory" : "trap" };
}

let module_: WebAssembly.Module, kept: Auditor | undefined;

async function endingOf(order: Asked): Promise<Ending> {
  const does = async (): Promise<Ending> => {
    if (order.command === "sums") return sumsOf(order);
    const auditor = kept ??= new Auditor(ofModule(module_)());
    auditor.reset();
    return order.command === "kinds" ? kindsOf(auditor, order) : audit(auditor, order);
  };
  const rounds = "rounds" in order ? order.rounds ?? 1 : 1;
  for (let round = 1; round < rounds; round++) await does().catch(nothingBy);
  return does().catch(nothingBy);
}

const fileOf = (number: number): File => sent[number];
const filesOf = ({ election, outcome, certificate }: Files<number>): Files => ({
  election: fileOf(election), outcome: outcome === null ? null : fileOf(outcome),
  certificate: certificate === null ? null : fileOf(certificate),
});

/** An order with its files, for their numbers. */
function askedBy(order: Asked<number>): Asked {
  if ("list" in order) return { ...order, list: order.list.map(fileOf) };
  return { ...order, files: filesOf(order.files), ahead: order.ahead && filesOf(order.ahead) };
}

onmessage = async ({ data }: MessageEvent<Beginning | Sent>) => {
  if ("module" in data) {
    module_ = data.module;
    return;
  }
  sent.push(...data.files);
  tell({ tells: "done", ending: await endingOf(askedBy(data.order)), taken: kept?.taken ?? 0 });
};
tell({ tells: "ready" });
