/* The ballots of an election: of voter i, counted from 0, the places from starts[i] up to starts[i + 1], rising. */

/** Of 20,000 projects each has a place of 16 bits. */
export interface Ballots {
  readonly starts: Uint32Array;
  readonly places: Uint16Array;
}

export const votersOf = ({ starts }: Ballots): number => starts.length - 1;

/** Ballots that are written one after the other. */
export class BallotWriter {
  private starts = new Uint32Array(1 << 12);
  private places = new Uint16Array(1 << 14);
  private voters = 0;
  private end = 0;
  /** The last voter, counted from 1, whose ballot has a project. */
  private readonly lastOf: Uint32Array;

  constructor(projects: number) {
    this.lastOf = new Uint32Array(projects);
  }

  /** Adds a project to the ballot that is being written, where it isn't there already. Whether it is new there. */
  add(place: number): boolean {
    if (this.lastOf[place] === this.voters + 1) return false;
    this.lastOf[place] = this.voters + 1;
    if (this.end === this.places.length) this.places = grown(this.places, new Uint16Array(2 * this.end));
    this.places[this.end++] = place;
    return true;
  }

  /** Ends a ballot. */
  close(): void {
    const start = this.starts[this.voters++];
    if (this.end - start > 1) this.places.subarray(start, this.end).sort();
    if (this.voters === this.starts.length) this.starts = grown(this.starts, new Uint32Array(2 * this.voters));
    this.starts[this.voters] = this.end;
  }

  written(): Ballots {
    return { starts: this.starts.slice(0, this.voters + 1), places: this.places.slice(0, this.end) };
  }
}

function grown<Numbers extends Uint32Array | Uint16Array>(old: Numbers, room: Numbers): Numbers {
  room.set(old);
  return room;
}
