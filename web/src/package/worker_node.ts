/* The auditor in a worker of Node, which the program doesn't wait for while nothing is asked. It has the module there too: native
   code goes on until its audit has ended, whoever closes the worker. */

import { Worker } from "node:worker_threads";
import { auditorBy } from "./away.js";
import { WORKER } from "./generated_worker.js";
import { OutOfMemory } from "./index_node.js";
import { compiledModule } from "./module.js";
import type { Start } from "./away.js";
import type { WorkerAuditor } from "./later.js";

export type { WorkerAuditor };

/** What a browser's worker has by itself. */
const FRONT = `
const { parentPort } = require("node:worker_threads");
globalThis.postMessage = told => parentPort.postMessage(told);
parentPort.on("message", data => globalThis.onmessage({ data }));
`;

const start: Start = (tell, fail) => {
  const worker = new Worker(FRONT + WORKER, { eval: true, execArgv: [] });
  worker.on("message", tell);
  worker.on("error", fail);
  worker.on("exit", () => fail(new Error("the worker ended")));
  worker.unref();
  return {
    send: (sent, transfer) => worker.postMessage(sent, transfer),
    hold: isHeld => isHeld ? worker.ref() : worker.unref(),
    end: () => {
      worker.terminate();
    },
  };
};

/** The auditor in a worker, once its module is compiled. */
export async function workerAuditor(): Promise<WorkerAuditor> {
  return auditorBy(await compiledModule(), start, OutOfMemory);
}
