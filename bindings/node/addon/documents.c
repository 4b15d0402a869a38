/* Documents, their doors, names by number, and the array for answers. */
#include "addon.h"

#include <stdlib.h>
#include <string.h>

/* Makes room for one more in a table. */
static bool grow(void **table, size_t count, size_t *room, size_t size) {
    if (count < *room)
        return true;
    size_t more = *room ? *room * 2 : 16;
    void *grown = realloc(*table, more * size);
    if (grown == NULL)
        return false;
    *table = grown;
    *room = more;
    return true;
}

/* A door for an owner of a document, or NONE if memory was refused. */
static int32_t opened(state *here, owl_document *document, uint32_t owner) {
    if (!grow((void **)&here->doors, here->door_count, &here->door_room, sizeof *here->doors))
        return NONE;
    here->doors[here->door_count] = (door){document, owner};
    return (int32_t)here->door_count++;
}

/* lend(array): the Int32Array for answers. */
CALL(lend, 0) {
    napi_typedarray_type type;
    size_t count;
    void *data;
    if (napi_get_typedarray_info(from->env, from->values[0], &type, &count, &data, NULL, NULL) != napi_ok || type != napi_int32_array)
        return refused(from->env, ILLEGAL);
    if (from->state->lent != NULL)
        napi_delete_reference(from->env, from->state->lent);
    napi_create_reference(from->env, from->values[0], 1, &from->state->lent);
    from->state->answers = data;
    from->state->answer_room = count;
    return number(from->env, 0);
}

/* name(bytes): the number of a name, of a type, or of a run of names. The program asks once for each. */
CALL(new_name, 0) {
    size_t size;
    state *here = from->state;
    if (napi_get_value_string_latin1(from->env, from->values[0], NULL, 0, &size) != napi_ok)
        return refused(from->env, ILLEGAL);
    uint8_t *bytes = malloc(size + 1);
    if (bytes == NULL || !grow((void **)&here->names, here->name_count, &here->name_room, sizeof *here->names)) {
        free(bytes);
        return refused(from->env, OWL_MEMORY);
    }
    napi_get_value_string_latin1(from->env, from->values[0], (char *)bytes, size + 1, &size);
    here->names[here->name_count] = (name){bytes, size};
    return number(from->env, (int32_t)here->name_count++);
}

/* open(): a new document; its page's door. */
CALL(open_document, 0) {
    owl_document *document = malloc(sizeof *document);
    if (document == NULL)
        return refused(from->env, OWL_MEMORY);
    *document = (owl_document)OWL_DOCUMENT_INIT;
    uint32_t status = dom_open(document);
    int32_t door = status == OWL_OK ? opened(from->state, document, OWL_PAGE) : NONE;
    if (door >= 0)
        return number(from->env, door);
    if (status == OWL_OK)
        dom_close(document);
    free(document);
    return refused(from->env, status == OWL_OK ? OWL_MEMORY : status);
}

/* close(door): ends the document of a door, and with it all its doors. */
CALL(close_document, 1) {
    uint32_t status = dom_close(from->door.document);
    for (size_t at = 0; at < from->state->door_count; at++)
        if (from->state->doors[at].document == from->door.document)
            from->state->doors[at].document = NULL;
    free(from->door.document);
    return done(from->env, status);
}

/* attach(door, element): the door of the element's new component; its owner's number stands in the answers. */
CALL(attach, 2) {
    uint32_t component = 0;
    uint32_t status = dom_attach(DOOR, own(from, from->numbers[1]), &component);
    if (status != OWL_OK)
        return refused(from->env, status);
    int32_t door = opened(from->state, from->door.document, component);
    if (door < 0)
        return refused(from->env, OWL_MEMORY);
    size_t at = 0;
    put(from->state, &at, (int32_t)component);
    return number(from->env, door);
}

const entry documents[] = {
    {"lend", lend}, {"name", new_name}, {"open", open_document}, {"close", close_document}, {"attach", attach}, {NULL, NULL},
};
