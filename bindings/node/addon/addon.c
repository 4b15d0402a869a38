/* What all calls of the addon share: arguments in, answers out, and the table of functions. */
#include "addon.h"

#include <stdlib.h>
#include <string.h>

napi_value number(napi_env env, int32_t answer) {
    napi_value made = NULL;
    napi_create_int32(env, answer, &made);
    return made;
}

napi_value refused(napi_env env, uint32_t status) {
    return number(env, REFUSED - (int32_t)status);
}

napi_value done(napi_env env, uint32_t status) {
    return status == OWL_OK ? number(env, 0) : refused(env, status);
}

napi_value truth(napi_env env, uint32_t status, bool is) {
    return status == OWL_OK ? number(env, is) : refused(env, status);
}

void put(state *into, size_t *at, int32_t answer) {
    if (*at < into->answer_room)
        into->answers[*at] = answer;
    *at += 1;
}

napi_value node(call *from, uint32_t status, owl_node found) {
    if (status != OWL_OK)
        return refused(from->env, status);
    if (found.owner == OWL_NONE.owner)
        return number(from->env, NONE);
    if (found.owner == from->door.owner)
        return number(from->env, (int32_t)found.number);
    size_t at = 0;
    put(from->state, &at, (int32_t)found.owner);
    put(from->state, &at, (int32_t)found.number);
    return number(from->env, FOREIGN);
}

napi_value list(call *from, uint32_t status, const owl_node *nodes, size_t count) {
    if (status != OWL_OK)
        return refused(from->env, status);
    size_t fits = count < from->state->answer_room ? count : from->state->answer_room;
    for (size_t at = 0; at < fits; at++)
        from->state->answers[at] = (int32_t)nodes[at].number;
    return number(from->env, (int32_t)count);
}

/* Text of bytes is smaller in V8, and compares faster with names in programs. */
napi_value text(napi_env env, const uint16_t *units, size_t count) {
    enum { SHORT = 256 };
    char narrow[SHORT];
    napi_value made = NULL;
    size_t at = 0;
    while (at < count && at < SHORT && units[at] < 256) {
        narrow[at] = (char)units[at];
        at++;
    }
    if (at == count)
        napi_create_string_latin1(env, narrow, count, &made);
    else
        napi_create_string_utf16(env, units, count, &made);
    return made;
}

napi_value word(napi_env env, const uint8_t *bytes, size_t size) {
    napi_value made = NULL;
    napi_create_string_latin1(env, (const char *)bytes, size, &made);
    return made;
}

bool arguments_of(napi_env env, napi_callback_info info, size_t numbers, call *made, napi_value *failed) {
    size_t count = MOST_ARGUMENTS;
    made->env = env;
    if (napi_get_cb_info(env, info, &count, made->values, NULL, (void **)&made->state) != napi_ok)
        return *failed = refused(env, ILLEGAL), false;
    for (size_t at = 0; at < numbers; at++)
        if (at >= count || napi_get_value_int32(env, made->values[at], &made->numbers[at]) != napi_ok)
            return *failed = refused(env, ILLEGAL), false;
    if (numbers == 0)
        return true;
    size_t place = (size_t)made->numbers[0];
    if (made->numbers[0] < 0 || place >= made->state->door_count || made->state->doors[place].document == NULL)
        return *failed = refused(env, OWL_CLOSED), false;
    made->door = made->state->doors[place];
    return true;
}

bool units_of(call *from, size_t argument, const uint16_t **units, size_t *count) {
    state *here = from->state;
    napi_value value = from->values[argument];
    if (napi_get_value_string_utf16(from->env, value, (char16_t *)here->units, here->unit_room, count) != napi_ok)
        return false;
    *units = here->units;
    if (*count + 1 < here->unit_room)
        return true;
    napi_get_value_string_utf16(from->env, value, NULL, 0, count);
    uint16_t *room = realloc(here->units, (*count + 2) * 2 * sizeof *room);
    if (room == NULL)
        return false;
    here->units = room;
    here->unit_room = (*count + 2) * 2;
    *units = room;
    return napi_get_value_string_utf16(from->env, value, (char16_t *)room, here->unit_room, count) == napi_ok;
}

bool name_at(const call *from, int32_t number, name *found) {
    if (number < 0 || (size_t)number >= from->state->name_count)
        return false;
    *found = from->state->names[number];
    return true;
}

/* Frees all at the end of the environment: workers have environments of their own. */
static void end(void *data) {
    state *here = data;
    for (size_t at = 0; at < here->door_count; at++)
        if (here->doors[at].document != NULL && here->doors[at].owner == OWL_PAGE) {
            dom_close(here->doors[at].document);
            free(here->doors[at].document);
        }
    for (size_t at = 0; at < here->name_count; at++)
        free(here->names[at].bytes);
    free(here->names);
    free(here->doors);
    free(here->units);
    free(here);
}

static void add(napi_env env, napi_value exports, state *here, const entry *entries) {
    for (; entries->word != NULL; entries++) {
        napi_value function;
        napi_create_function(env, entries->word, NAPI_AUTO_LENGTH, entries->function, here, &function);
        napi_set_named_property(env, exports, entries->word, function);
    }
}

NAPI_MODULE_INIT() {
    enum { UNITS = 4096 };
    state *here = calloc(1, sizeof *here);
    if (here == NULL || (here->units = malloc(UNITS * sizeof *here->units)) == NULL) {
        free(here);
        napi_throw_error(env, NULL, "out of memory");
        return NULL;
    }
    here->unit_room = UNITS;
    napi_add_env_cleanup_hook(env, end, here);
    const entry *all[] = {documents, trees, reads, events, observers, ranges, cursors};
    for (size_t at = 0; at < sizeof all / sizeof *all; at++)
        add(env, exports, here, all[at]);
    return exports;
}
