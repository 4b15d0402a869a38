/*
 * Runs scripts of lines by typed calls. Calls have no turns. A script by lines is the same calls with a checkpoint where a turn was ended, without the
 * lines that are answered `busy`: so turns are kept here.
 */
#include "lines.h"

static const char *const REFUSALS[] = {"ok",        "syntax",        "busy",              "foreign",  "unknown",    "wrong-kind", "hierarchy",
                                       "not-found", "not-supported", "invalid-character", "selector", "index-size", "type",       "limit"};
enum { REFUSAL_COUNT = 14 };

/* The place of the owner with a word, also of one that is not there. */
static uint32_t place_of(const script *in, bytes word)
{
    for (uint32_t at = 0; at < in->owner_count; at++)
        if (strlen(in->owners[at].word) == word.size && !memcmp(in->owners[at].word, word.at, word.size))
            return at;
    return NOT_THERE;
}

/* Ends the open turn: the tasks of all owners run. */
static uint32_t end_turn(script *in)
{
    uint32_t status = dom_checkpoint(&in->document);
    in->turn = NO_TURN;
    return status ? status : tell(in);
}

static uint32_t refuse(script *in, bytes word, uint32_t refusal)
{
    fprintf(in->to, "%.*s ! %s\n", (int)word.size, (const char *)word.at, REFUSALS[refusal]);
    return OWL_OK;
}

/* Runs a command of an owner whose turn it may be, and gives the status of its call. */
static uint32_t run_command(script *in, const line *read)
{
    if (read->command == END_TURN && in->acts != NOT_THERE) {
        uint32_t status = end_turn(in);
        return status ? status : say_done(in);
    }
    uint32_t status = read->command == END_TURN ? OWL_UNKNOWN : perform(in, read);
    if (status == OWL_OK && in->turn == NO_TURN)
        in->turn = in->acts;
    return status;
}

/* Runs a line. OK: it was answered, also by a refusal. */
static uint32_t run_line(script *in, bytes text)
{
    line read = read_line(text);
    if (read.owner.size == 0) {
        fputs("! owner\n", in->to);
        return OWL_OK;
    }
    in->acts = place_of(in, read.owner);
    if (in->turn != NO_TURN && in->turn != OWL_PAGE && in->turn != in->acts) {
        uint32_t status = end_turn(in);
        if (status)
            return status;
    }
    if (!read.is_read)
        return refuse(in, read.owner, OWL_SYNTAX);
    if (in->turn == OWL_PAGE && in->acts != OWL_PAGE)
        return refuse(in, read.owner, OWL_BUSY);
    uint32_t status = run_command(in, &read);
    return status > OWL_OK && status < REFUSAL_COUNT ? refuse(in, read.owner, status) : status;
}

/* Runs all lines of the input, the last one also where no line feed ends it, and then ends the turn. */
static uint32_t run_all(script *in, bytes input)
{
    uint32_t status = OWL_OK;
    while (input.size && status == OWL_OK) {
        const uint8_t *feed = memchr(input.at, '\n', input.size);
        bytes text = {input.at, feed ? (size_t)(feed - input.at) : input.size};
        status = run_line(in, text);
        input.at += text.size + (feed != NULL);
        input.size -= text.size + (feed != NULL);
    }
    return status == OWL_OK && in->turn != NO_TURN ? end_turn(in) : status;
}

uint32_t run_script(bytes input, FILE *to)
{
    script in = {.document = OWL_DOCUMENT_INIT, .turn = NO_TURN, .to = to};
    uint32_t status = dom_open(&in.document);
    if (status)
        return status;
    in.owners = calloc(1, sizeof *in.owners);
    in.owner_count = 1;
    if (in.owners) {
        strcpy(in.owners->word, "p");
        status = run_all(&in, input);
    }
    bool is_there = in.owners;
    free(in.owners);
    uint32_t closed = dom_close(&in.document);
    return !is_there ? OWL_MEMORY : status ? status : closed;
}
