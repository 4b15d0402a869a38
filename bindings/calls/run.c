/*
 * Runs a script of lines by typed calls, and writes what answers it, as domrun does; with an owner's word it writes that owner's lines.
 *
 * Usage: run [--view OWNER] [FILE]     (FILE: standard input if it is `-`, or none is given)
 * Exit status: 0; 1 where the input could not be read, or a call was answered as no line may be; 3 where memory was refused; 4 where a write failed.
 */
#include "lines.h"

/* Runs the script, and writes the lines that begin with the owner's word and a space. */
static uint32_t run_for(const char *owner, bytes input)
{
    FILE *file = tmpfile();
    size_t size = strlen(owner), place = 0;
    bool is_theirs = true;
    int byte;
    if (!file)
        return OWL_MEMORY;
    uint32_t status = run_script(input, file);
    rewind(file);
    while ((byte = getc(file)) != EOF) {
        is_theirs = is_theirs && (place > size || byte == (place < size ? owner[place] : ' '));
        if (place == size && is_theirs)
            fputs(owner, stdout);
        if (place++ >= size && is_theirs)
            putchar(byte);
        if (byte == '\n') {
            place = 0;
            is_theirs = true;
        }
    }
    fclose(file);
    return status;
}

int main(int word_count, char **words)
{
    uint8_t *block;
    const char *owner = word_count > 2 && !strcmp(words[1], "--view") ? words[2] : NULL;
    int file = owner ? 3 : 1;
    if (word_count > file && strcmp(words[file], "-") && !freopen(words[file], "rb", stdin))
        return 1;
    bytes input = read_input(&block);
    if (!input.at)
        return 1;
    uint32_t status = owner ? run_for(owner, input) : run_script(input, stdout);
    free(block);
    if (fflush(stdout))
        return 4;
    if (status && status != OWL_MEMORY)
        fprintf(stderr, "run: a call was answered %u\n", (unsigned)status);
    return !status ? 0 : status == OWL_MEMORY ? 3 : 1;
}
