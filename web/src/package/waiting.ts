/* Calls on files whose other end is slow. Of a pipe that isn't ready the system may say so, instead of waiting. */

/** The milliseconds of the first wait and of the longest. */
const SHORTEST = 1, LONGEST = 50;
const cell = new Int32Array(new SharedArrayBuffer(4));

/** Does something again until the other end is ready. */
export function awaited<Done>(does: () => Done): Done {
  for (let wait = SHORTEST;; wait = Math.min(2 * wait, LONGEST)) {
    try {
      return does();
    } catch (error) {
      if ((error as { code?: string }).code !== "EAGAIN") throw error;
    }
    Atomics.wait(cell, 0, 0, wait);
  }
}
