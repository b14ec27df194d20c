/* Which of the files of a call was refused. */

import type { Role } from "./commands.js";
import type { InputName } from "./objects.js";

/** The file that is refused. With `both` the certificates are called by their kinds. */
export function refusedRole(input: InputName): Role {
  if (input === "election" || input === "outcome" || input === "violation") return input;
  return "certificate";
}
