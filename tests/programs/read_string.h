/* How proving.c and verifying.c read their input. */
#ifndef READ_STRING_H
#define READ_STRING_H

#include <spki.h>
#include <stdio.h>
#include <stdlib.h>

/* Reads LENGTH:OCTETS from standard input into a block that the caller frees. An octet 00 that does not count is behind the octets, for atoll. False
 * at the end of the input, also within a string, for another form, and if memory ran out. */
static bool read_string(struct spki_text *string)
{
    size_t length;
    if (scanf("%zu", &length) != 1 || getchar() != ':')
        return false;
    unsigned char *octets = malloc(length + 1);
    if (!octets || fread(octets, 1, length, stdin) != length)
        return false;
    octets[length] = 0;
    *string = (struct spki_text){octets, length};
    return true;
}

#endif
