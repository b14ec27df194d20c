/* The worker that looks for certificates, as the page asks it. */

import { element } from "./elements.js";
import type { FindOrder, FindProgress, FindTold, Numbered, ReadOrder } from "../worker/finds.js";

/** What ends an order. */
export type FindEnding = Exclude<FindTold, FindProgress>;

interface Waiting {
  readonly resolve: (told: FindEnding) => void;
  readonly tell: (progress: FindProgress) => void;
}

type Failed = Extract<FindEnding, { tells: "failed" }>;

/** What is told where the worker ends without a word. */
export const TRAP: Failed = { tells: "failed", why: "trap" };

export class Finder {
  private readonly url: string;
  private worker: Worker | undefined;
  private readonly waiting = new Map<number, Waiting>();
  private count = 0;
  /** Whether nothing more can be asked. */
  isClosed = false;
  /** The election that the worker has read. */
  private read: ReadOrder | undefined;

  constructor() {
    const script = new Blob([element("finder").textContent ?? ""], { type: "text/javascript" });
    this.url = URL.createObjectURL(script);
  }

  /** Gives an order, and answers what is told last. */
  ask(content: FindOrder, tell: (progress: FindProgress) => void = () => {}): Promise<FindEnding> {
    if (this.isClosed) return Promise.resolve(TRAP);
    if (content.asks === "read") this.read = content;
    const number = ++this.count, worker = this.worker ?? this.begun(content);
    return new Promise(resolve => {
      this.waiting.set(number, { resolve, tell });
      worker.postMessage({ number, content });
    });
  }

  /** Has the search that runs end, which then tells what it found so far. */
  stop(): void {
    this.worker?.postMessage({ number: 0, content: { asks: "stop" } });
  }

  /** Whether nothing is being asked. */
  get isIdle(): boolean {
    return this.waiting.size === 0;
  }

  /** Gives the worker's memory back. When something is asked again, the election is read anew. */
  rest(): void {
    this.worker?.terminate();
    this.worker = undefined;
    for (const { resolve } of this.waiting.values()) resolve(TRAP);
    this.waiting.clear();
  }

  /** Ends the worker, and all that it was asked. */
  close(): void {
    this.isClosed = true;
    this.rest();
    URL.revokeObjectURL(this.url);
  }

  /** A worker that has read the election, unless it is asked to. */
  private begun({ asks }: FindOrder): Worker {
    const worker = this.worker = new Worker(this.url);
    worker.onmessage = ({ data }: MessageEvent<Numbered<FindTold>>) => this.note(data);
    worker.onerror = () => this.rest();
    if (asks !== "read") worker.postMessage({ number: 0, content: this.read });
    return worker;
  }

  private note({ number, content }: Numbered<FindTold>): void {
    const its = this.waiting.get(number);
    if (content.tells === "progress") return its?.tell(content);
    // What is read again later has to be the same.
    if (content.tells === "summary" && this.read) this.read = { ...this.read, sums: content.sums };
    this.waiting.delete(number);
    its?.resolve(content);
  }
}
