/* The auditor in a worker, with stand-ins for the worker: what is sent, and what becomes of calls that are open. */

import assert from "node:assert/strict";
import test from "node:test";
import { auditorBy } from "../src/package/away.js";
import type { Question, Sent, Told } from "../src/package/away.js";

class Memory extends Error {}

/** A worker that only notes what it is sent. */
interface Noted {
  readonly sent: Sent[];
  readonly transferred: number[];
  readonly held: boolean[];
  readonly tell: (told: Told) => void;
  readonly fail: (error: Error) => void;
  isEnded: boolean;
}

const module = { a: "module" } as unknown as WebAssembly.Module;

function made(): { auditor: ReturnType<typeof auditorBy>; workers: Noted[] } {
  const workers: Noted[] = [];
  const auditor = auditorBy(module, (tell, fail) => {
    const noted: Noted = { sent: [], transferred: [], held: [], tell, fail, isEnded: false };
    workers.push(noted);
    return {
      send: (sent, transfer) => {
        noted.sent.push(sent);
        noted.transferred.push(transfer.length);
      },
      hold: isHeld => { noted.held.push(isHeld); },
      end: () => { noted.isEnded = true; },
    };
  }, Memory);
  return { auditor, workers };
}

/** Until what was called so far has sent its question. */
const sent = (): Promise<void> => new Promise(resolve => { setTimeout(resolve, 0); });
const idOf = (asked: Sent): number => (asked as Question).id;
const failure = (call: Promise<unknown>): Promise<unknown> => call.then(() => undefined, error => error);

test("a worker begins with the first question, is sent the module first, and is held while something is open", async () => {
  const { auditor, workers } = made();
  assert.equal(workers.length, 0);
  const first = auditor.read("one"), second = auditor.prices("two", "three", { stable: true });
  await sent();
  const [worker] = workers, [begins, one, two] = worker.sent;
  assert.equal(workers.length, 1);
  assert.deepEqual(begins, { module });
  assert.deepEqual(worker.transferred, [0, 1, 2]);
  assert.equal(("name" in two && two.given.mode.stable) && two.name, "prices");
  worker.tell({ id: idOf(two), answer: "B" });
  assert.equal(await second, "B");
  assert.deepEqual(worker.held, [true, true]);
  worker.tell({ id: idOf(one), answer: "A" });
  assert.equal(await first, "A");
  assert.deepEqual(worker.held, [true, true, false]);
});

test("an error of the worker is one here, and out of memory is its own", async () => {
  const { auditor, workers } = made(), calls = [auditor.read("one"), auditor.read("two")].map(failure);
  await sent();
  const [{ sent: [, one, two], tell }] = workers;
  tell({ id: idOf(one), error: { name: "RuntimeError", message: "unreachable", isMemory: false } });
  tell({ id: idOf(two), error: { name: "Error", message: "", isMemory: true } });
  const [trap, memory] = await Promise.all(calls) as Error[];
  assert.deepEqual([trap.name, trap.message, trap instanceof Memory], ["RuntimeError", "unreachable", false]);
  assert(memory instanceof Memory);
});

test("where the worker ends by itself, all that is open is rejected, and the next call begins another", async () => {
  const { auditor, workers } = made(), calls = [auditor.read("one"), auditor.read("two")].map(failure);
  await sent();
  workers[0].fail(new Error("gone"));
  assert.deepEqual((await Promise.all(calls)).map(error => (error as Error).message), ["gone", "gone"]);
  assert(workers[0].isEnded);
  const next = auditor.read("three");
  await sent();
  assert.equal(workers.length, 2);
  assert.deepEqual(workers[1].sent[0], { module });
  // What the first one says now is nothing to the second.
  workers[0].fail(new Error("again"));
  assert(!workers[1].isEnded);
  workers[1].tell({ id: idOf(workers[1].sent[1]), answer: "C" });
  assert.equal(await next, "C");
});

test("once it is closed, calls that are open and later ones are rejected", async () => {
  const { auditor, workers } = made(), open = failure(auditor.read("one"));
  await sent();
  auditor.close();
  assert(workers[0].isEnded);
  for (const call of [open, failure(auditor.read("two")), failure(auditor.folder([]))]) {
    assert((await call as Error).message.includes("closed"));
  }
  await sent();
  assert.equal(workers.length, 1);
});

test("once it is closed, a call is rejected whose file is still read, and may be for ever", async () => {
  const { auditor, workers } = made(), endless = () => new ReadableStream<Uint8Array>({ pull: () => new Promise(() => {}) });
  const calls = [auditor.read(endless()), auditor.prices("one", endless()), auditor.folder([["a.pb", endless()]])].map(failure);
  await sent();
  auditor.close();
  for (const call of calls) assert((await call as Error).message.includes("closed"));
  assert.equal(workers.length, 0);
});

test("a mistake in the words is told before a worker begins", async () => {
  const { auditor, workers } = made();
  const misspelt = { stabel: true } as never;
  for (const call of [auditor.read(1 as never), auditor.prices("", "", misspelt), auditor.folder(null as never)]) {
    assert(await failure(call) instanceof TypeError);
  }
  await sent();
  assert.equal(workers.length, 0);
});

test("bytes are sent as they were when they were handed in, and the caller keeps them", async () => {
  const { auditor, workers } = made(), bytes = new Uint8Array([1, 2, 3]);
  failure(auditor.read(bytes));
  bytes.fill(9);
  await sent();
  const [, asked] = workers[0].sent;
  assert.deepEqual("name" in asked && [...asked.given.files.election as Uint8Array], [1, 2, 3]);
});

test("a Blob is sent unread, and a file of a folder that isn't audited isn't sent", async () => {
  const { auditor, workers } = made(), blob = new Blob(["META"]);
  failure(auditor.folder([["a.pb", blob], ["notes.txt", blob], ["b.prices.csv", "alone"]]));
  await sent();
  const [, asked] = workers[0].sent;
  assert.deepEqual("folder" in asked && [...asked.folder.files], [["a.pb", blob]]);
  assert.deepEqual(workers[0].transferred, [0, 0]);
});
