/* The worker that makes election files of sheets, as the page asks it: one thing after the other. */

import { element } from "./elements.js";
import type { SheetOrder, SheetsFailed, SheetTold } from "../worker/sheet_orders.js";

/** What is told where the worker ends without a word. */
const TRAP: SheetsFailed = { tells: "failed", why: "trap" };

export class SheetMaker {
  private url = "";
  private worker: Worker | undefined;
  private end: (told: SheetTold) => void = () => {};

  /** A browser may not let the worker run. */
  ask(order: SheetOrder): Promise<SheetTold> {
    const told = new Promise<SheetTold>(resolve => {
      this.end = resolve;
      const worker = this.worker ??= this.begun();
      worker.postMessage(order);
    });
    return told.catch(() => TRAP);
  }

  close(): void {
    this.worker?.terminate();
    URL.revokeObjectURL(this.url);
  }

  private begun(): Worker {
    this.url = URL.createObjectURL(new Blob([element("sheets-worker").textContent ?? ""], { type: "text/javascript" }));
    const worker = new Worker(this.url);
    worker.onmessage = ({ data }: MessageEvent<SheetTold>) => this.end(data);
    worker.onerror = () => this.end(TRAP);
    return worker;
  }
}
