/* Reads the input of a program. */
#include "lines.h"

bytes read_input(uint8_t **block)
{
    size_t room = 1 << 16, count = 0;
    *block = malloc(room);
    while (*block) {
        count += fread(*block + count, 1, room - count, stdin);
        if (count < room)
            break;
        uint8_t *more = realloc(*block, room *= 2);
        if (!more)
            free(*block);
        *block = more;
    }
    bytes all = {ferror(stdin) ? NULL : *block, count};
    return all;
}
