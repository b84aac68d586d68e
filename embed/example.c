/*
 * Runs the log in one file on the sheet in another, and on the sheet's network, and prints a line for
 * each, as the program `watch` does.
 */
#include "watch.h"

#include <errno.h>
#include <stdio.h>
#include <stdlib.h>
#include <string.h>

struct bytes {
    uint8_t *at;
    size_t length;
};

/* Makes room for one more byte, at least, and gives whether there is. */
static int grow(struct bytes *bytes, size_t *room) {
    uint8_t *more;
    if (bytes->length < *room)
        return 1;
    *room = *room == 0 ? 4096 : *room * 2;
    more = realloc(bytes->at, *room);
    if (more == NULL)
        return 0;
    bytes->at = more;
    return 1;
}

/* Reads a whole file; gives 0, or what went wrong as errno has it. The bytes are never at NULL. */
static int read_file(const char *name, struct bytes *bytes) {
    size_t room = 0;
    int wrong = 0;
    FILE *file = fopen(name, "rb");
    if (file == NULL)
        return errno;
    do {
        if (!grow(bytes, &room)) {
            wrong = ENOMEM;
            break;
        }
        errno = 0;
        bytes->length += fread(bytes->at + bytes->length, 1, room - bytes->length, file);
        if (ferror(file))
            wrong = errno != 0 ? errno : EIO;
    } while (wrong == 0 && !feof(file));
    fclose(file);
    return wrong;
}

static void print_number_or_dash(uint32_t number) {
    if (number == WATCH_NONE)
        printf("-");
    else
        printf("%lu", (unsigned long)number);
}

static void print_answer(uint32_t code, uint32_t first, uint32_t second, uint32_t third,
                         uint32_t fourth) {
    unsigned long n = first, m = second, k = third, e = fourth;
    switch (code) {
    case WATCH_CLEAN:
        printf("clean %lu state %lu open %lu\n", n, m, k);
        break;
    case WATCH_VIOLATED:
        printf("violated %lu state ", n);
        print_number_or_dash(second);
        printf(" triple ");
        print_number_or_dash(third);
        /* Without a triple no call's entry is told. */
        if (third == WATCH_NONE)
            printf(" entry -\n");
        else
            printf(" entry %lu\n", e);
        break;
    case WATCH_REFUSED:
        printf("refused %lu\n", n);
        break;
    default:
        printf("refused %lu at %lu\n", n, m);
        break;
    }
}

/* The runs' counts of operators and operands are not printed. */
static void run_on_sheet(struct bytes sheet, struct bytes log) {
    uint32_t first, second, third, fourth;
    uint64_t count;
    uint32_t code = watch_run(sheet.at, sheet.length, log.at, log.length, &first, &second, &third,
                              &fourth, &count);
    print_answer(code, first, second, third, fourth);
}

static void run_on_network(struct bytes sheet, struct bytes log) {
    uint8_t network[WATCH_MOST_NETWORK];
    size_t size;
    uint32_t code, first, second, third, fourth;
    uint64_t count;
    uint32_t refusal = watch_translate(sheet.at, sheet.length, network, sizeof network, &size);
    if (refusal != 0) {
        print_answer(WATCH_REFUSED, refusal, 0, 0, 0);
        return;
    }
    code = watch_run_network(network, size, log.at, log.length, &first, &second, &third, &fourth,
                             &count);
    print_answer(code, first, second, third, fourth);
}

/* Reads the two files, or says which cannot be read; gives whether both were. */
static int read_files(const char *program, char **names, struct bytes *files) {
    int i, wrong;
    for (i = 0; i < 2; i++) {
        wrong = read_file(names[i], &files[i]);
        if (wrong != 0) {
            fprintf(stderr, "%s: cannot read %s: %s\n", program, names[i], strerror(wrong));
            return 0;
        }
    }
    return 1;
}

int main(int argc, char **argv) {
    struct bytes files[2] = {{NULL, 0}, {NULL, 0}};
    int done;
    if (argc != 3) {
        fprintf(stderr, "usage: %s SHEET LOG\n", argc > 0 ? argv[0] : "example");
        return 2;
    }
    done = read_files(argv[0], argv + 1, files);
    if (done) {
        run_on_sheet(files[0], files[1]);
        run_on_network(files[0], files[1]);
        if (fflush(stdout) != 0) {
            fprintf(stderr, "%s: cannot write to standard output: %s\n", argv[0], strerror(errno));
            done = 0;
        }
    }
    free(files[0].at);
    free(files[1].at);
    return done ? 0 : 1;
}
