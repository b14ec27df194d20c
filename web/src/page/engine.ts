/* The worker that does what the page asks: one order at a time, which can be stopped. */

import { bytesOf, element } from "./elements.js";
import type { Answer, Asked, Ending, Files, Message, Nothing, Sent, Step } from "../worker/orders.js";

/** A worker that tells nothing for so many milliseconds was never let run. */
const LONGEST_START = 30_000;
/** What is told where the browser says nothing of its own. */
const NO_WORKER = "the worker was not let run";

/** The browser doesn't run the auditor. */
export class NoEngine extends Error {}

/** That there is no answer, and what the browser says of it. */
export interface NoAnswer extends Nothing {
  readonly detail?: string;
}

export const noEngine = (error: Error): NoAnswer => ({ tells: "nothing", why: "engine", detail: error.message });

/** The module, compiled once, and the worker's script. */
export interface Engine {
  readonly module: Promise<WebAssembly.Module>;
  readonly script: string;
}

/** A browser may have no WebAssembly, or forbid it here. */
export function makeEngine(): Engine {
  const script = URL.createObjectURL(new Blob([element("worker").textContent ?? ""], { type: "text/javascript" }));
  const compile = async (): Promise<WebAssembly.Module> => WebAssembly.compile(bytesOf(element("module")));
  const module = compile().catch(error => { throw new NoEngine(`${error}`); });
  return { module, script };
}

/** What is told while an order is done: how far it is, or an answer after which the rest comes. */
export type Meanwhile = Step | Answer;

/** A worker that has more memory than this is ended after an order, which gives it back. */
const MOST_KEPT = 1 << 26;
const NONE_TAKEN = 0;

/** The files that a worker has, by their numbers. It takes a browser long to send one, so each is sent once. */
class SentFiles {
  private readonly numbers = new Map<File, number>();

  /** An order with what the worker hasn't got of its files. */
  of(order: Asked): Sent {
    const files: File[] = [];
    const numberOf = (file: File): number => {
      const known = this.numbers.get(file), number = known ?? this.numbers.size;
      if (known === undefined) files.push(file);
      this.numbers.set(file, number);
      return number;
    };
    const among = ({ election, outcome, certificate }: Files): Files<number> => ({
      election: numberOf(election), outcome: outcome && numberOf(outcome),
      certificate: certificate && numberOf(certificate),
    });
    if ("list" in order) return { order: { ...order, list: order.list.map(numberOf) }, files };
    const { ahead } = order;
    return { order: { ...order, files: among(order.files), ahead: ahead && among(ahead) }, files };
  }
}

/** One order to a worker at a time. The worker goes on to the next, unless it was stopped, failed or grew large. */
export class Runner {
  stop: () => void = () => {};
  private worker: Worker | undefined;
  private sent = new SentFiles();

  constructor(private readonly engine: Engine) {}

  /** Does an order. Answers undefined where it was stopped. */
  async run(order: Asked, tell: (told: Meanwhile) => void = () => {}): Promise<Ending | NoAnswer | undefined> {
    let isOver = false;
    const stopped = new Promise<undefined>(resolve => { this.stop = () => resolve(undefined); });
    const done = this.engine.module
      .then(module => isOver ? undefined : this.done(module, order, tell))
      .catch(error => ({ ending: noEngine(error), taken: NONE_TAKEN }));
    const told = await Promise.race([stopped, done]);
    isOver = true;
    if (!told || told.taken > MOST_KEPT || told.ending.tells === "nothing") this.end();
    return told?.ending;
  }

  /** Ends the worker. */
  end(): void {
    this.worker?.terminate();
    this.worker = undefined;
    this.sent = new SentFiles();
  }

  /**
   * Gives the worker an order, and answers what it tells last. An answer after which the rest comes is told first. A
   * worker that ends before it is there was never let run.
   */
  private done(
    module: WebAssembly.Module, order: Asked, tell: (told: Meanwhile) => void,
  ): Promise<{ ending: Ending; taken: number }> {
    let isReady = this.worker !== undefined, answer: Answer | undefined;
    const worker = this.worker ??= new Worker(this.engine.script);
    return new Promise((resolve, reject) => {
      if (!isReady) setTimeout(() => isReady || reject(new NoEngine(NO_WORKER)), LONGEST_START);
      worker.onmessage = ({ data }: MessageEvent<Message>) => {
        if (!isReady) worker.postMessage(this.sent.of(order));
        isReady = true;
        if (data.tells === "answer") answer = data;
        if (data.tells !== "done") tell(data);
        else resolve({ ending: wholeOf(data.ending, answer), taken: data.taken });
      };
      worker.onerror = ({ message }) => isReady
        ? resolve({ ending: { tells: "nothing", why: "trap" }, taken: NONE_TAKEN })
        : reject(new NoEngine(message || NO_WORKER));
      if (isReady) worker.postMessage(this.sent.of(order));
      else worker.postMessage({ module });
    });
  }
}

/** Lends a runner to whoever has an order, and keeps one for the next, whose worker is there already. */
export class Runners {
  private idle: Runner | undefined;

  constructor(private readonly engine: Engine) {}

  take(): Runner {
    const runner = this.idle ?? new Runner(this.engine);
    this.idle = undefined;
    return runner;
  }

  give(runner: Runner): void {
    if (this.idle) runner.end();
    else this.idle = runner;
  }

  /** Does one order. */
  async run(order: Asked): Promise<Ending | NoAnswer | undefined> {
    const runner = this.take(), told = await runner.run(order);
    this.give(runner);
    return told;
  }
}

/** An answer with what came after it. */
const wholeOf = (ending: Ending, answer: Answer | undefined): Ending =>
  ending.tells === "rest" && answer ? { ...answer, ...ending, tells: "answer" } : ending;
