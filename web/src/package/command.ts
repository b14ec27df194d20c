/* The command `pbaudit`: the proved program, compiled to WebAssembly, by Node. */

import { readFileSync, writeSync } from "node:fs";
import process from "node:process";
import { setFlagsFromString } from "node:v8";
import { isOutOfMemory } from "../auditor/statuses.js";
import { machineOf, wordsOf } from "./machine.js";
import { awaited } from "./waiting.js";

const NAME = "pbaudit", FAULT_STATUS = 4, ERRORS = 2;
/** After so much work V8 compiles a function anew. Node waits for that at its end, which took longer than a small file. */
const LATER = "--wasm-tiering-budget=20000000";

/** Runs the program, and answers its exit status. */
function run(): number {
  const module = new WebAssembly.Module(readFileSync(new URL("pbaudit.wasm", import.meta.url)));
  const words = [new TextEncoder().encode(NAME), ...wordsOf()];
  const machine = machineOf(words, () => memory);
  const { exports } = new WebAssembly.Instance(module, { machine });
  const memory = exports.memory as WebAssembly.Memory;
  return (exports.run as () => number)();
}

/** What is told where the program couldn't run to its end, which is no answer. */
const faultOf = (error: unknown): string => isOutOfMemory(error) ? "fault memory\n" : `${NAME}: ${error}\n`;

/** Tells it to whoever takes it. Where nobody does, the status is left to tell it. */
function tell(fault: string): void {
  try {
    awaited(() => writeSync(ERRORS, fault));
  } catch {
    // An error that isn't caught would end Node with the status of a no.
  }
}

try {
  setFlagsFromString(LATER);
  process.exitCode = run();
} catch (error) {
  process.exitCode = FAULT_STATUS;
  tell(faultOf(error));
}
