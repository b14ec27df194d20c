/* Audits prices by the library, and prints the line.
   build: cc -o audit audit.c $(PKG_CONFIG_PATH=../lib pkg-config --cflags --libs pbaudit)
   usage: audit ELECTION CERTIFICATE [--stable] [--outcome FILE] */
#include "pbaudit.h"
#include <stdio.h>
#include <stdlib.h>
#include <string.h>

struct bytes {
    uint8_t *at; /* never null, as the library asks */
    size_t length;
};

static void *memory(void *old, size_t size) {
    void *grown = realloc(old, size);
    if (!grown) {
        fputs("fault memory\n", stderr);
        exit(4);
    }
    return grown;
}

static struct bytes whole(const char *path) {
    FILE *file = fopen(path, "rb");
    size_t room = 4096, count;
    struct bytes read = {memory(NULL, room), 0};
    while (file && (count = fread(read.at + read.length, 1, room - read.length, file)) > 0) {
        read.length += count;
        if (read.length == room)
            read.at = memory(read.at, room *= 2);
    }
    if (!file || ferror(file)) {
        perror(path);
        exit(4);
    }
    fclose(file);
    return read;
}

int main(int count, char **words) {
    bool stable = false, has_outcome = false;
    uint8_t nothing = 0;
    struct bytes outcome = {&nothing, 0};
    if (count < 3)
        return 3;
    for (int i = 3; i < count; i++) {
        if (!strcmp(words[i], "--stable"))
            stable = true;
        else if (!strcmp(words[i], "--outcome") && i + 1 < count)
            outcome = whole(words[++i]), has_outcome = true;
        else
            return 3;
    }
    struct bytes election = whole(words[1]), certificate = whole(words[2]), text = {NULL, 0};
    size_t room = 256;
    uint8_t status;
    do { /* again with more room where the text did not fit */
        text.at = memory(text.at, room += text.length);
        status = pbaudit_prices(election.at, election.length, outcome.at, outcome.length, has_outcome, certificate.at,
                                certificate.length, stable, true, false, text.at, room, &text.length);
    } while (text.length > room);
    fwrite(text.at, 1, text.length, stdout);
    return status;
}
