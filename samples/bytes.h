/* What the samples share: all bytes of a stream or of a file, of any size, and a refusal in words. */
#ifndef BYTES_H
#define BYTES_H

#include <stdio.h>
#include <stdlib.h>
#include "warpladle.h"

/* A larger room with the same bytes, or NULL and the old one freed. */
static inline uint8_t *larger(uint8_t *bytes, size_t room)
{
    uint8_t *more = realloc(bytes, room);
    if (more == NULL)
        free(bytes);
    return more;
}

/* All bytes of a stream, to be freed; NULL where they cannot be read. */
static inline uint8_t *bytes_of(FILE *stream, size_t *len)
{
    size_t room = 1 << 20, got;
    uint8_t *bytes = malloc(room);
    *len = 0;
    while (bytes != NULL && (got = fread(bytes + *len, 1, room - *len, stream)) > 0) {
        *len += got;
        if (*len == room)
            bytes = larger(bytes, room *= 2);
    }
    if (bytes != NULL && ferror(stream)) {
        free(bytes);
        return NULL;
    }
    return bytes;
}

/* All bytes of a file, to be freed; NULL, which is told, where they cannot be read. */
static inline uint8_t *bytes_of_file(const char *name, size_t *len)
{
    FILE *file = fopen(name, "rb");
    uint8_t *bytes = file == NULL ? NULL : bytes_of(file, len);
    if (bytes == NULL)
        perror(name);
    if (file != NULL)
        fclose(file);
    return bytes;
}

/* Tells a refusal on standard error. */
static inline void tell(uint64_t refusal, uint64_t place)
{
    fprintf(stderr, "refused %llu %llu: %s\n", (unsigned long long)refusal, (unsigned long long)place, wl_refusal_text(refusal));
}

#endif
