/* How the page writes numbers: as the library's page does (docs/PAGE.md). */

import assert from "node:assert/strict";
import test from "node:test";
import { grouped } from "../src/words/formats.js";

test("a narrow space stands between thousands, from the first on", () => {
  const cases: [number | bigint | string, string][] = [
    [0, "0"], [999, "999"], [1000, "1\u202f000"], ["9990", "9\u202f990"], [12345, "12\u202f345"],
    [10n ** 18n, "1\u202f000\u202f000\u202f000\u202f000\u202f000\u202f000"],
  ];
  for (const [number, wanted] of cases) assert.equal(grouped(number), wanted);
});
