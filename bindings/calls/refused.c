/*
 * Runs a script of lines by typed calls with each request for memory refused in turn, once and from then on: the run ends with MEMORY, what was written
 * up to there is what is written without a refusal, and the document can be closed. Built with -Wl,--wrap=malloc,--wrap=realloc,--wrap=calloc.
 *
 * Usage: refused < FILE     (says how many requests were refused)
 * Exit status: 0; 1 where a run ends otherwise.
 */
#include "lines.h"

static long left = -1; /* how many requests for memory are granted; below 0 all are */

#include "../c/refused_memory.h"

enum { ROOM = 1 << 24 };

static char whole[ROOM], part[ROOM];

/* Runs the script with so many requests granted, and gives how many bytes it wrote. */
static size_t run_with(long granted, bytes input, char *to, uint32_t *status)
{
    FILE *file = tmpfile();
    if (!file)
        exit(1);
    left = granted;
    *status = run_script(input, file);
    left = -1;
    rewind(file);
    size_t count = fread(to, 1, ROOM, file);
    fclose(file);
    return count;
}

int main(void)
{
    uint8_t *block;
    uint32_t status = OWL_MEMORY;
    bytes input = read_input(&block);
    size_t size = input.at ? run_with(-1, input, whole, &status) : 0;
    if (status != OWL_OK)
        return 1;
    for (long granted = 0; granted < 1000000; granted++) {
        size_t count = run_with(granted, input, part, &status);
        bool is_line = count == 0 || part[count - 1] == '\n';
        if (count > size || memcmp(whole, part, count) || (status == OWL_OK && count != size)) {
            fprintf(stderr, "refused: after %ld requests the output is another one\n", granted);
            return 1;
        }
        if (status == OWL_OK) {
            printf("%ld requests refused\n", granted);
            free(block);
            return 0;
        }
        if (status != OWL_MEMORY || !is_line) {
            fprintf(stderr, "refused: after %ld requests the status is %u\n", granted, (unsigned)status);
            return 1;
        }
    }
    return 1;
}
