/* What is used of Node, whose own types Debian doesn't have. */

declare module "node:test" {
  export default function test(name: string, run: () => void | Promise<void>): void;
}

declare module "node:assert/strict" {
  interface Assert {
    (holds: unknown, what?: string): asserts holds;
    equal(found: unknown, wanted: unknown, what?: string): void;
    deepEqual(found: unknown, wanted: unknown, what?: string): void;
    throws(run: () => void, what?: unknown): void;
  }
  const assert: Assert;
  export default assert;
}

declare module "node:fs" {
  export function openSync(path: string, how: string): number;
  export function closeSync(file: number): void;
  export function statSync(path: string): { readonly mode: number };
  export function lstatSync(path: string): { readonly mode: number };
  export function readSync(file: number, room: Uint8Array, at: number, length: number, from: null): number;
  export function writeSync(file: number, bytes: Uint8Array | string): number;
  export function readFileSync(path: string | URL): Uint8Array;
  export function readdirSync(path: string, how: { encoding: "buffer" }): Uint8Array[];
}

declare module "node:module" {
  export function createRequire(from: string): (path: string) => unknown;
}

declare module "node:process" {
  const process: {
    readonly argv: readonly string[];
    readonly platform: string;
    readonly arch: string;
    readonly versions: Readonly<Record<string, string>>;
    exitCode: number;
  };
  export default process;
}

declare module "node:tty" {
  export function isatty(file: number): boolean;
}

declare module "node:v8" {
  export function setFlagsFromString(flags: string): void;
}

declare module "node:crypto" {
  interface Hash {
    update(bytes: Uint8Array): Hash;
    digest(how: "hex"): string;
  }
  export function createHash(name: "sha256"): Hash;
}

declare module "node:worker_threads" {
  export class Worker {
    constructor(script: string, how: { eval: true; execArgv: readonly string[] });
    on(event: "message" | "error" | "exit", does: (told: any) => void): void;
    postMessage(message: unknown, transfer: readonly ArrayBuffer[]): void;
    ref(): void;
    unref(): void;
    terminate(): Promise<number>;
  }
}

declare module "*.txt" {
  const text: string;
  export default text;
}

declare module "*.json" {
  const value: any;
  export default value;
}
