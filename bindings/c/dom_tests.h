/*
 * What the tests of owlantimony_dom.h have in common. Each is one program, which writes what is not as it should be.
 */
#include "owlantimony_dom.h"

static int faults;

#define WANT(fact) ((fact) ? (void)0 : (void)(faults++, fprintf(stderr, "%s:%d: %s\n", __FILE__, __LINE__, #fact)))

/* What callbacks were told: a word for each event, with its phase and the length of its path. */
typedef struct told {
    char text[256];
    owl_node target;
    owl_owner acts;
} told;

/* Notes what it was told. */
static void note(void *data, const owl_event *event)
{
    told *notes = (told *)data;
    size_t size = strlen(notes->text);
    snprintf(notes->text + size, sizeof notes->text - size, "%s %d %u;", event->type, event->phase, (unsigned)event->path_count);
    notes->target = event->target;
}

/* A new element. */
static owl_node made(owl_owner owner, const char *name)
{
    owl_node node = OWL_NONE;
    WANT(owl_create_element(owner, name, &node) == OWL_OK);
    return node;
}
