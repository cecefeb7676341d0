/*
 * Says whether a new package of WIT serves whoever was built against an old one, as JSON.
 *
 *     compat OLD.wit NEW.wit
 */
#include "wac.h"

#include <stdio.h>
#include <stdlib.h>

/* A text, or none where BYTES is null. */
struct text {
    uint8_t *bytes;
    size_t length;
};

/* All of a file. */
static struct text read_file(const char *path)
{
    struct text text = {NULL, 0};
    FILE *file = fopen(path, "rb");
    if (file == NULL)
        return text;
    size_t room = 1 << 16, got;
    text.bytes = malloc(room);
    while (text.bytes != NULL && (got = fread(text.bytes + text.length, 1, room - text.length, file)) > 0) {
        text.length += got;
        if (text.length == room)
            text.bytes = realloc(text.bytes, room *= 2);
    }
    fclose(file);
    return text;
}

int main(int count, char **words)
{
    if (count != 3) {
        fprintf(stderr, "usage: compat OLD.wit NEW.wit\n");
        return 2;
    }
    struct text old = read_file(words[1]), new = read_file(words[2]);
    if (old.bytes == NULL || new.bytes == NULL) {
        fprintf(stderr, "compat: a file can't be read\n");
        return 2;
    }
    /* first how long the answer is, with room for nothing, then the answer */
    uint8_t nothing;
    ptrdiff_t length = wac_compat(old.bytes, old.length, new.bytes, new.length, &nothing, 0);
    uint8_t *answer = length > 0 ? malloc((size_t)length) : NULL;
    if (answer != NULL)
        length = wac_compat(old.bytes, old.length, new.bytes, new.length, answer, (size_t)length);
    if (answer == NULL || length < 0) {
        fprintf(stderr, "compat: %s\n", length == WAC_NO_TEXT ? "a file isn't UTF-8" : "out of memory");
        return 2;
    }
    fwrite(answer, 1, (size_t)length, stdout);
    free(answer);
    free(new.bytes);
    free(old.bytes);
    return 0;
}
