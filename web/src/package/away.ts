/* The auditor in a worker, so that nobody waits for an audit but who asked for it. It begins with the first question. */

import { auditedIn, Later } from "./answering.js";
import { withEach, withWanted } from "./sources.js";
import type { Answerer } from "./answering.js";
import type { Report } from "./facts.js";
import type { CallName, Handed, HandedFolder } from "./handed.js";
import type { WorkerAuditor } from "./later.js";
import type { Answers } from "./library.js";
import type { BlobSource, Taken } from "./sources.js";

/** What is sent of a file: its bytes, or a Blob, which is read in the worker. */
export type SentFile = Uint8Array | BlobSource;

/** What a worker is asked, under a number. */
export type Question =
  | { readonly id: number; readonly name: CallName; readonly given: Handed<SentFile> }
  | { readonly id: number; readonly folder: HandedFolder<SentFile> };

/** What it is sent: first the module. */
export type Sent = { readonly module: WebAssembly.Module } | Question;

/** What it tells: the answer to a question, or the error that ended it. */
export interface Told {
  readonly id: number;
  readonly answer?: unknown;
  readonly error?: { readonly name: string; readonly message: string; readonly isMemory: boolean };
}

/** A worker that runs. `hold` says whether it is waited for before the program ends. */
export interface Port {
  send(sent: Sent, transfer: readonly ArrayBuffer[]): void;
  hold(isHeld: boolean): void;
  end(): void;
}

/** Starts a worker, which tells answers, and fails where it isn't let run or ends by itself. */
export type Start = (tell: (told: Told) => void, fail: (error: Error) => void) => Port;

interface Open {
  readonly resolve: (answer: unknown) => void;
  readonly reject: (error: Error) => void;
}

/** What is sent of a file. Bytes were copied or read for this alone. */
const sentOf = async ({ bytes, blob }: Taken): Promise<SentFile> => blob ?? bytes();

const buffersOf = (files: Iterable<SentFile | undefined>): ArrayBuffer[] =>
  [...files].flatMap(file => file instanceof Uint8Array ? [file.buffer as ArrayBuffer] : []);

/** The class of the errors that say that memory ran out. */
type MemoryError = new (message: string) => Error;

class Away implements Answerer {
  private port: Port | undefined;
  private readonly open = new Map<number, Open>();
  /** What rejects the calls whose files are still read. */
  private readonly reading = new Set<(error: Error) => void>();
  private last = 0;
  private isClosed = false;

  constructor(
    private readonly module: WebAssembly.Module, private readonly start: Start, private readonly memoryError: MemoryError,
  ) {}

  async answer<Name extends CallName>(name: Name, taken: Handed<Taken>): Promise<Answers[Name]> {
    const given = await this.read(withEach(taken, sentOf));
    return this.ask(id => ({ id, name, given }), Object.values(given.files)) as Promise<Answers[Name]>;
  }

  async folder(taken: HandedFolder<Taken>): Promise<Report> {
    const audited = auditedIn(taken.files.keys());
    const folder = await this.read(withWanted(taken, name => audited.has(name), sentOf));
    return this.ask(id => ({ id, folder }), folder.files.values()) as Promise<Report>;
  }

  /** Files once they are read, which may never be: it isn't waited for beyond the end of the auditor. */
  private read<Files>(files: Promise<Files>): Promise<Files> {
    return new Promise((resolve, reject) => {
      this.reading.add(reject);
      files.then(resolve, reject).finally(() => this.reading.delete(reject));
    });
  }

  private ask(question: (id: number) => Question, files: Iterable<SentFile | undefined>): Promise<unknown> {
    if (this.isClosed) return Promise.reject(new Error("the auditor is closed"));
    return new Promise((resolve, reject) => {
      const id = ++this.last, port = this.running();
      port.send(question(id), buffersOf(files));
      this.open.set(id, { resolve, reject });
      port.hold(true);
    });
  }

  /** The worker, which is started where none runs. */
  private running(): Port {
    if (this.port) return this.port;
    const port = this.start(told => this.take(told), error => {
      if (this.port === port) this.end(error);
    });
    this.port = port;
    port.send({ module: this.module }, []);
    return port;
  }

  private take({ id, answer, error }: Told): void {
    const asked = this.open.get(id);
    this.open.delete(id);
    if (this.open.size === 0) this.port?.hold(false);
    if (error) asked?.reject(this.errorOf(error));
    else asked?.resolve(answer);
  }

  /** Why a question wasn't answered. */
  private errorOf({ name, message, isMemory }: NonNullable<Told["error"]>): Error {
    return isMemory ? new this.memoryError(message) : Object.assign(new Error(message), { name });
  }

  /** Ends the worker, and with it all that is open. */
  private end(error: Error): void {
    this.port?.end();
    this.port = undefined;
    const open = [...this.open.values()];
    this.open.clear();
    for (const { reject } of open) reject(error);
  }

  close(): void {
    const error = new Error("the auditor was closed");
    this.isClosed = true;
    this.end(error);
    for (const reject of this.reading) reject(error);
  }
}

class InWorker extends Later implements WorkerAuditor {
  constructor(private readonly away: Away) {
    super(away);
  }

  close(): void {
    this.away.close();
  }
}

export const auditorBy = (module: WebAssembly.Module, start: Start, memoryError: MemoryError): WorkerAuditor =>
  new InWorker(new Away(module, start, memoryError));
