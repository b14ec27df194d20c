/* SHA-256, which a page from a server without encryption isn't given by the browser. */

const BLOCK = 64;
const K = Uint32Array.from(primes(64), prime => fraction(Math.cbrt(prime)));

/** The first primes. */
function primes(count: number): number[] {
  const found: number[] = [];
  for (let number = 2; found.length < count; number++) {
    if (found.every(prime => number % prime !== 0)) found.push(number);
  }
  return found;
}

/** The first 32 bits of what is behind the point. */
function fraction(number: number): number {
  return Math.floor((number % 1) * 2 ** 32);
}

const turned = (word: number, by: number): number => (word >>> by) | (word << (32 - by));

export class Sha256 {
  private readonly state = Uint32Array.from(primes(8), prime => fraction(Math.sqrt(prime)));
  private readonly words = new Uint32Array(BLOCK);
  private readonly rest = new Uint8Array(BLOCK);
  private length = 0;

  add(bytes: Uint8Array): void {
    let at = 0, used = this.length % BLOCK;
    this.length += bytes.length;
    while (at < bytes.length) {
      const count = Math.min(BLOCK - used, bytes.length - at);
      if (count === BLOCK) {
        this.mix(bytes, at);
      } else {
        this.rest.set(bytes.subarray(at, at + count), used);
        if (used + count === BLOCK) this.mix(this.rest, 0);
      }
      at += count;
      used = (used + count) % BLOCK;
    }
  }

  /** The sum of all bytes that were added, as 64 digits. Nothing is added after it. */
  sum(): string {
    const bits = this.length * 8, zeros = (BLOCK + 55 - this.length % BLOCK) % BLOCK;
    const end = new DataView(new ArrayBuffer(1 + zeros + 8));
    end.setUint8(0, 0x80);
    end.setUint32(1 + zeros, Math.floor(bits / 2 ** 32));
    end.setUint32(5 + zeros, bits >>> 0);
    this.add(new Uint8Array(end.buffer));
    return [...this.state].map(word => word.toString(16).padStart(8, "0")).join("");
  }

  /** The words of a block, and those that are made of them. */
  private spread(bytes: Uint8Array, from: number): void {
    const w = this.words;
    for (let at = 0; at < 16; at++) {
      const byte = from + 4 * at;
      w[at] = (bytes[byte] << 24) | (bytes[byte + 1] << 16) | (bytes[byte + 2] << 8) | bytes[byte + 3];
    }
    for (let at = 16; at < BLOCK; at++) {
      const a = w[at - 15], b = w[at - 2];
      const one = turned(a, 7) ^ turned(a, 18) ^ (a >>> 3), two = turned(b, 17) ^ turned(b, 19) ^ (b >>> 10);
      w[at] = w[at - 16] + one + w[at - 7] + two;
    }
  }

  private mix(bytes: Uint8Array, from: number): void {
    this.spread(bytes, from);
    let [a, b, c, d, e, f, g, h] = this.state;
    for (let at = 0; at < BLOCK; at++) {
      const one = turned(e, 6) ^ turned(e, 11) ^ turned(e, 25), choice = (e & f) ^ (~e & g);
      const first = (h + one + choice + K[at] + this.words[at]) | 0;
      const two = turned(a, 2) ^ turned(a, 13) ^ turned(a, 22), most = (a & b) ^ (a & c) ^ (b & c);
      h = g;
      g = f;
      f = e;
      e = (d + first) | 0;
      d = c;
      c = b;
      b = a;
      a = (first + two + most) | 0;
    }
    [a, b, c, d, e, f, g, h].forEach((word, at) => { this.state[at] += word; });
  }
}
