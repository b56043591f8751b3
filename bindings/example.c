/* Prints what clockmark prints for the text in a file, or in standard input where no file is named. */
#include "ravokimpy.h"

#include <errno.h>
#include <stdio.h>
#include <stdlib.h>
#include <string.h>

struct bytes {
    uint8_t *data;
    size_t length;
};

/* Reads a stream to its end. The data are never null, and belong to the caller. Where it fails, `errno` says why. */
static int read_all(FILE *stream, struct bytes *read)
{
    size_t room = 4096;
    struct bytes all = {malloc(room), 0};

    if (all.data == NULL)
        return -1;
    while (!feof(stream) && !ferror(stream)) {
        if (all.length == room) {
            uint8_t *more = realloc(all.data, 2 * room);

            if (more == NULL)
                break;
            all.data = more;
            room *= 2;
        }
        all.length += fread(all.data + all.length, 1, room - all.length, stream);
    }
    if (!feof(stream)) {
        free(all.data);
        return -1;
    }
    *read = all;
    return 0;
}

/* Prints the output of a text, and answers the status with which the program ends. */
static int print_output(struct bytes text)
{
    size_t room = ravokimpy_room(text.data, text.length);
    size_t written = 0;
    uint8_t *out = room < SIZE_MAX ? malloc(room + 1) : NULL;
    uint8_t refusal;
    int status = EXIT_SUCCESS;

    if (out == NULL) {
        fprintf(stderr, "no memory for the output\n");
        return EXIT_FAILURE;
    }
    refusal = ravokimpy_output(text.data, text.length, out, room, &written);
    if (refusal != 0) {
        fprintf(stderr, "refused with %d\n", refusal);
        status = EXIT_FAILURE;
    } else if (fwrite(out, 1, written, stdout) != written || fflush(stdout) != 0) {
        fprintf(stderr, "the output cannot be written: %s\n", strerror(errno));
        status = EXIT_FAILURE;
    }
    free(out);
    return status;
}

int main(int count, char **words)
{
    FILE *stream = count > 1 ? fopen(words[1], "rb") : stdin;
    struct bytes text;
    int status;

    if (stream == NULL || read_all(stream, &text) != 0) {
        fprintf(stderr, "the text cannot be read: %s\n", strerror(errno));
        return EXIT_FAILURE;
    }
    status = print_output(text);
    free(text.data);
    return status;
}
