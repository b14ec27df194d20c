/* What packaging/javascript writes beside the package's scripts: the library's module, as base64. */

export declare const MODULE: string;
