/* Compares picked_bytes of web/picked.c with the instruction for which it stands: for each byte of `which` at each place,
 * and for bytes by chance. It ends with status 1 where one differs, and with 77 where the processor hasn't the instruction. */
#include <stdio.h>
#include <stdlib.h>
#include <string.h>

#include PICKED

typedef char Signed __attribute__((vector_size(16)));

static Bytes by_the_processor(Bytes from, Bytes which) {
    return (Bytes)__builtin_ia32_pshufb128((Signed)from, (Signed)which);
}

static void compare(Bytes from, Bytes which) {
    Bytes one = picked_bytes(from, which), other = by_the_processor(from, which);
    if (memcmp(&one, &other, sizeof one) == 0)
        return;
    for (int at = 0; at < 16; at++)
        printf("from %d which %d: %d and %d\n", from[at], which[at], one[at], other[at]);
    exit(1);
}

static Bytes by_chance(void) {
    Bytes bytes;
    for (int at = 0; at < 16; at++)
        bytes[at] = (unsigned char)(rand() >> 4);
    return bytes;
}

int main(void) {
    if (!__builtin_cpu_supports("ssse3"))
        return 77;
    for (int place = 0; place < 16; place++)
        for (int byte = 0; byte < 256; byte++) {
            Bytes which = by_chance();
            which[place] = (unsigned char)byte;
            compare(by_chance(), which);
        }
    for (int round = 0; round < 100000; round++)
        compare(by_chance(), by_chance());
    return 0;
}
