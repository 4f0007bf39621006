/* What the test programs share: texts of files, and what this program itself cannot do without. */
#ifndef SHARED_H
#define SHARED_H

#include <stdint.h>
#include <stdio.h>
#include <stdlib.h>
#include <string.h>

struct text {
    uint8_t *bytes;
    size_t length;
};

static struct text stream_text(FILE *file)
{
    struct text text = { NULL, 0 };
    for (size_t room = 0;;) {
        if (text.length == room) {
            room = room != 0 ? 2 * room : 65536;
            text.bytes = realloc(text.bytes, room);
            if (text.bytes == NULL)
                exit(8);
        }
        size_t count = fread(text.bytes + text.length, 1, room - text.length, file);
        if (count == 0)
            return text;
        text.length += count;
    }
}

static inline struct text file_text(const char *name)
{
    FILE *file = fopen(name, "rb");
    if (file == NULL) {
        fprintf(stderr, "read fault\n");
        exit(5);
    }
    struct text text = stream_text(file);
    fclose(file);
    return text;
}

#endif
