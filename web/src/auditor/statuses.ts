/* The statuses that a call answers, how it ends without one, the most bytes that a file may have, and what is asked of
   prices unless somebody asks otherwise. */

export const YES = 0, NO = 1, REFUSED = 2, NO_MEMORY = 4;
export const LONGEST_FILE = 2 ** 28;
/** The version of the library's interface, PBAUDIT_INTERFACE of its header. */
export const INTERFACE = 2;

/** The library has no memory left, and no more is given. */
export class OutOfMemory extends Error {}

/** Whether the library has no memory left, or whoever runs it. */
export const isOutOfMemory = (error: unknown): boolean =>
  error instanceof OutOfMemory || (error instanceof RangeError && /memory|allocat/i.test(error.message));

/** What is asked of prices. */
export interface Mode {
  readonly stable: boolean;
  readonly exhaustive: boolean;
  readonly cover: boolean;
}

export const USUAL_MODE: Mode = { stable: false, exhaustive: true, cover: false };

export const isSameMode = (one: Mode | undefined, other: Mode | undefined): boolean =>
  one?.stable === other?.stable && one?.exhaustive === other?.exhaustive && one?.cover === other?.cover;
