/* Stands in for an instruction of x86-64 that the kit's crates call by its name, SSSE3's pshufb: from 16 bytes it picks one
 * for each place, the one at the place that the low four bits of `which` say, or 0 where the highest bit of `which` is set.
 * web/retarget calls this in its place.
 */
typedef unsigned char Bytes __attribute__((vector_size(16)));

Bytes picked_bytes(Bytes from, Bytes which) {
    Bytes picked;
    for (int at = 0; at < 16; at++)
        picked[at] = which[at] & 0x80 ? 0 : from[which[at] & 15];
    return picked;
}
