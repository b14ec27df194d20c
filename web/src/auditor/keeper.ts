/* An auditor that is kept from one audit to the next, since to make its memory takes longer than a small audit. */

import { Auditor } from "./auditor.js";
import type { Load } from "./loaded.js";

/** One whose memory grew beyond this many bytes isn't kept, for memory that was taken is never given back. */
export const MOST_KEPT = 1 << 26;

export class Keeper {
  private kept: Auditor | undefined;

  constructor(private readonly load: Load, private readonly most = MOST_KEPT) {}

  /**
   * Does something with an auditor whose memory is as it was at first. It isn't kept after an exception, as a trap or out
   * of memory.
   */
  use<Answer>(does: (auditor: Auditor) => Answer): Answer {
    const { kept } = this;
    this.kept = undefined;
    kept?.reset();
    const auditor = kept ?? new Auditor(this.load()), answer = does(auditor);
    if (auditor.taken <= this.most) this.kept = auditor;
    return answer;
  }
}
