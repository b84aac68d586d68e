/*
 * Reads a sheet from standard input and writes its network for the conflict monitor card, version 3, to
 * standard output.
 */
#include "watch.h"

#include <errno.h>
#include <stdio.h>
#include <string.h>

static int complain(const char *program, const char *what) {
    fprintf(stderr, "%s: cannot %s: %s\n", program, what, strerror(errno));
    return 1;
}

int main(int argc, char **argv) {
    static uint8_t sheet[65536], network[WATCH_MOST_CARD];
    const char *program = argc > 0 ? argv[0] : "card";
    size_t length, size;
    uint32_t refusal;
    /* No sheet has over 65,535 bytes: one that is cut here is refused 1. */
    length = fread(sheet, 1, sizeof sheet, stdin);
    if (ferror(stdin))
        return complain(program, "read standard input");
    refusal = watch_translate_card(sheet, length, network, sizeof network, &size);
    if (refusal != 0) {
        fprintf(stderr, "refused %lu\n", (unsigned long)refusal);
        return 2;
    }
    if (fwrite(network, 1, size, stdout) != size || fflush(stdout) != 0)
        return complain(program, "write to standard output");
    return 0;
}
