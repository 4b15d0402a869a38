/* Makes the calls of commands on ranges, iterators, walkers, events, observers and tasks. */
#include "lines.h"

#define WHO &in->document, in->acts
#define FIRST node_of(in, read->nodes[0])
#define THING read->numbers[0]
#define WORD read->words[0].at, read->words[0].size
#define IF_DONE(say) (status ? status : (say))

static uint32_t change_range(script *in, const line *read)
{
    switch (read->command) {
    case RANGE_START: return dom_range_set_start(WHO, THING, FIRST, read->numbers[1]);
    case RANGE_END: return dom_range_set_end(WHO, THING, FIRST, read->numbers[1]);
    case RANGE_COLLAPSE: return dom_range_collapse(WHO, THING, read->numbers[1]);
    case RANGE_DROP: return dom_range_drop(WHO, THING);
    case DELETE: return dom_range_delete(WHO, THING);
    default: return dom_range_insert(WHO, THING, FIRST);
    }
}

static uint32_t perform_on_range(script *in, const line *read)
{
    uint32_t status, range;
    owl_point start, end;
    owl_node fragment;
    const uint16_t *units;
    size_t count;
    switch (read->command) {
    case RANGE_NEW:
        status = dom_range_create(WHO, &range);
        return IF_DONE(say_number(in, "r", range));
    case RANGE_GET:
        status = dom_range_points(WHO, THING, &start, &end);
        return IF_DONE(say_points(in, start, end));
    case RANGE_TEXT:
        status = dom_range_text(WHO, THING, &units, &count);
        return IF_DONE(say_units(in, units, count));
    case EXTRACT:
        status = dom_range_extract(WHO, THING, &fragment);
        return IF_DONE(say_node(in, fragment));
    default:
        status = change_range(in, read);
        return IF_DONE(say_done(in));
    }
}

/* Says where an iterator stands. */
static uint32_t say_reference(script *in, const line *read)
{
    owl_node node;
    bool before;
    uint32_t status = dom_iterator_reference(WHO, THING, &node, &before);
    if (status)
        return status;
    fprintf(in->to, "%s ok ", in->owners[in->acts].word);
    write_node(in, in->acts, node);
    fputs(before ? " before\n" : " after\n", in->to);
    return OWL_OK;
}

static uint32_t perform_on_cursor(script *in, const line *read)
{
    uint32_t status = OWL_SYNTAX, made;
    owl_node node;
    switch (read->command) {
    case ITERATOR_NEW:
        status = dom_iterator_create(WHO, FIRST, read->what_to_show, read->filter, WORD, &made);
        return IF_DONE(say_number(in, "i", made));
    case WALKER_NEW:
        status = dom_walker_create(WHO, FIRST, read->what_to_show, read->filter, WORD, &made);
        return IF_DONE(say_number(in, "w", made));
    case WALKER_SET:
        status = dom_walker_set(WHO, THING, FIRST);
        return IF_DONE(say_done(in));
    case ITERATOR_AT: return say_reference(in, read);
    case ITERATOR_NEXT: status = dom_iterator_next(WHO, THING, &node); break;
    case ITERATOR_PREVIOUS: status = dom_iterator_previous(WHO, THING, &node); break;
    case WALK: status = dom_walker_move(WHO, THING, read->numbers[1], &node); break;
    default: status = dom_walker_current(WHO, THING, &node); break;
    }
    return IF_DONE(say_node(in, node));
}

/* Says what was told, and then the truth that a dispatch is answered. */
static uint32_t dispatch(script *in, const line *read)
{
    bool truth;
    owl_node related = read->node_count > 1 ? node_of(in, read->nodes[1]) : OWL_NONE;
    uint32_t status = dom_dispatch(WHO, FIRST, WORD, read->flags, related, &truth);
    status = IF_DONE(tell(in));
    return IF_DONE(say_truth(in, truth));
}

/* Says the records of an observer, and then their count. */
static uint32_t take_records(script *in, const line *read)
{
    uint32_t count, status = dom_take_records(WHO, THING, &count);
    status = IF_DONE(tell(in));
    return IF_DONE(say_number(in, "", count));
}

uint32_t perform_on_things(script *in, const line *read)
{
    uint32_t status, made;
    switch (read->command) {
    case ITERATOR_NEW: case ITERATOR_NEXT: case ITERATOR_PREVIOUS: case ITERATOR_AT: case WALKER_NEW: case WALK: case WALKER_AT: case WALKER_SET:
        return perform_on_cursor(in, read);
    case LISTEN:
        status = dom_listen(WHO, FIRST, WORD, read->words[1].at, read->words[1].size, read->numbers[0], read->flags);
        return IF_DONE(say_done(in));
    case UNLISTEN:
        status = dom_unlisten(WHO, FIRST, WORD, read->words[1].at, read->words[1].size, read->flags);
        return IF_DONE(say_done(in));
    case DISPATCH: return dispatch(in, read);
    case OBSERVER:
        status = dom_observer_create(WHO, false, &made);
        return IF_DONE(say_number(in, "o", made));
    case OBSERVE:
        status = dom_observe(WHO, THING, FIRST, read->flags, WORD);
        return IF_DONE(say_done(in));
    case TAKE: return take_records(in, read);
    case DISCONNECT:
        status = dom_disconnect(WHO, THING);
        return IF_DONE(say_done(in));
    case MICROTASK:
        status = dom_queue_microtask(WHO, WORD, false);
        return IF_DONE(say_done(in));
    default: return perform_on_range(in, read);
    }
}
