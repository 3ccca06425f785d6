/*
 * check_file DEPTH FILE: tells whether a file is the body of a map of the depth.
 *
 * Ends with 0 where it is, with 1 where it is refused, and with 2 where the words are
 * wrong or the file cannot be read.
 */
#include "geltzori.h"

#include <stdio.h>
#include <stdlib.h>

/* A number of 0 to 255 in decimal digits, or -1. */
static int depth_of(const char *word)
{
    int depth = 0;

    if (*word == '\0')
        return -1;
    for (; *word != '\0'; word++) {
        if (*word < '0' || *word > '9')
            return -1;
        depth = 10 * depth + (*word - '0');
        if (depth > 255)
            return -1;
    }
    return depth;
}

/* All bytes of a file, never null where it could be read. The caller frees them. */
static uint8_t *bytes_of(FILE *file, size_t *length)
{
    size_t room = 16384;
    uint8_t *bytes = malloc(room);

    *length = 0;
    while (bytes != NULL) {
        uint8_t *more;

        *length += fread(bytes + *length, 1, room - *length, file);
        if (ferror(file))
            break;
        if (*length < room)
            return bytes;
        more = room <= SIZE_MAX / 2 ? realloc(bytes, 2 * room) : NULL;
        if (more == NULL)
            break;
        bytes = more;
        room *= 2;
    }
    free(bytes);
    return NULL;
}

int main(int argc, char **argv)
{
    FILE *file;
    uint8_t *body;
    size_t length;
    int depth, answer;

    depth = argc == 3 ? depth_of(argv[1]) : -1;
    if (depth < 0) {
        fprintf(stderr, "usage: check_file DEPTH FILE\n");
        return 2;
    }
    file = fopen(argv[2], "rb");
    body = file != NULL ? bytes_of(file, &length) : NULL;
    if (body == NULL) {
        fprintf(stderr, "check_file: cannot read %s\n", argv[2]);
        if (file != NULL)
            fclose(file);
        return 2;
    }
    fclose(file);
    answer = geltzori_check((uint8_t)depth, body, length);
    free(body);
    if (answer == 0)
        printf("%s: a map of depth %d\n", argv[2], depth);
    else
        printf("%s: refused %d\n", argv[2], answer);
    if (fflush(stdout) != 0) {
        fprintf(stderr, "check_file: cannot write\n");
        return 2;
    }
    return answer == 0 ? 0 : 1;
}
