/* Writes names that a stranger may choose so that hash tables with a known seed become slow: all of them begin their search at one place.

   Usage: chosen COUNT WHAT SEED, where WHAT is text or number. A text is hashed as the kit's FoldHasher hashes it, with its fixed seed. A
   number is the one that the units of an ID make, hashed so. SEED varies the names. If WHAT is any, the names are not chosen. */
#include <stdint.h>
#include <stdio.h>
#include <stdlib.h>
#include <string.h>

enum { LENGTH = 12, GROUP_BITS = 14 };
static const uint64_t MULTIPLIER = 0x9e3779b97f4a7c15u, START = 0x243f6a8885a308d3u;
static const char LETTERS[] = "abcdefghijklmnopqrstuvwxyz012345";

static uint64_t folded(uint64_t a, uint64_t b)
{
    unsigned __int128 product = (unsigned __int128)a * b;
    return (uint64_t)product ^ (uint64_t)(product >> 64);
}

static uint64_t eight(const char *bytes)
{
    uint64_t number;
    memcpy(&number, bytes, 8);
    return number;
}

static uint64_t hash_of_text(const char *text)
{
    uint64_t state = folded(eight(text) ^ (START + LENGTH), eight(text + LENGTH - 8) ^ MULTIPLIER);
    return folded(state ^ 0xff, MULTIPLIER ^ 2);
}

static uint64_t hash_of_number(const char *text)
{
    uint64_t number = 0;
    for (int at = 0; at < LENGTH; at++)
        number = number * MULTIPLIER + (unsigned char)text[at];
    return folded(START ^ number, MULTIPLIER ^ 16);
}

int main(int argc, char **argv)
{
    if (argc != 4)
        return 2;
    long count = atol(argv[1]);
    int any = !strcmp(argv[2], "any"), is_text = !strcmp(argv[2], "text");
    uint64_t random = strtoull(argv[3], NULL, 10) * 2 + 1;
    char text[LENGTH + 1] = {0};
    while (count > 0) {
        random = random * 6364136223846793005u + 1442695040888963407u;
        uint64_t rest = random >> 3;
        text[0] = 'n';
        for (int at = 1; at < LENGTH; at++, rest >>= 5)
            text[at] = LETTERS[rest & 31];
        uint64_t hash = is_text ? hash_of_text(text) : hash_of_number(text);
        uint32_t short_hash = (uint32_t)(hash ^ hash >> 32);
        if (!any && (short_hash & ((1u << GROUP_BITS) - 1)) != 0)
            continue;
        puts(text);
        count--;
    }
    return 0;
}
