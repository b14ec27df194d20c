/* What packaging/javascript writes beside the package's scripts: the script that runs in the worker. */

export declare const WORKER: string;
