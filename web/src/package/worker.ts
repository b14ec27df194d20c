/* The auditor in a worker of a browser. The worker's script is in the package as text, and started from a Blob. */

import { auditorBy } from "./away.js";
import { WORKER } from "./generated_worker.js";
import { OutOfMemory } from "./index.js";
import { compiledModule } from "./module.js";
import type { Start } from "./away.js";
import type { WorkerAuditor } from "./later.js";

export type { WorkerAuditor };

const start: Start = (tell, fail) => {
  const address = URL.createObjectURL(new Blob([WORKER], { type: "text/javascript" })), worker = new Worker(address);
  worker.onmessage = ({ data }) => tell(data);
  worker.onmessageerror = () => fail(new Error("what the worker told can't be read"));
  worker.onerror = ({ message }) => fail(new Error(message || "the worker was not let run"));
  return {
    send: (sent, transfer) => worker.postMessage(sent, [...transfer]),
    hold: () => {},
    end: () => {
      worker.terminate();
      URL.revokeObjectURL(address);
    },
  };
};

/** The auditor in a worker, once its module is compiled. */
export async function workerAuditor(): Promise<WorkerAuditor> {
  return auditorBy(await compiledModule(), start, OutOfMemory);
}
