/* What is read from the bytes of a file. */

const LONGEST_EXCERPT = 300;
const LINE_FEED = 10, RETURN = 13;

/** Where the line ends that goes on from here. */
function endOf(bytes: Uint8Array, from: number): number {
  let at = from;
  while (at < bytes.length && bytes[at] !== LINE_FEED && bytes[at] !== RETURN) at++;
  return at;
}

/** A line of a file, counted from 1. Of a long one the front, which is still longer than what is shown. */
export function excerptOf(bytes: Uint8Array, line: number): string {
  let start = 0;
  for (let at = 1; at < line && start < bytes.length; at++) {
    const end = endOf(bytes, start);
    start = end + (bytes[end] === RETURN && bytes[end + 1] === LINE_FEED ? 2 : 1);
  }
  return new TextDecoder().decode(bytes.subarray(start, endOf(bytes, start)).slice(0, 4 * LONGEST_EXCERPT));
}

/** Two numbers of all bytes, in which a change of any shows. */
export function sumOf(bytes: Uint8Array): string {
  const words = new Uint32Array(bytes.buffer, bytes.byteOffset, bytes.length >> 2);
  let one = bytes.length | 0, other = 1;
  const add = (word: number): void => {
    one = Math.imul(one ^ word, 0x9e3779b1);
    other = Math.imul(other ^ word, 0x5f356495);
    other ^= other >>> 15;
  };
  for (let at = 0; at < words.length; at++) add(words[at]);
  for (let at = 4 * words.length; at < bytes.length; at++) add(bytes[at]);
  return `${one} ${other}`;
}
