/*
 * How owlantimony_dom.h runs a line and tells events. It is included there, in the middle, and nowhere else.
 */
#ifndef OWLANTIMONY_CALLS_H
#define OWLANTIMONY_CALLS_H

static inline owl_status owli_tell(owl_dom *dom, char *told);

/* Memory was refused: the document does nothing more, so that nobody goes on from what was done by half. */
static inline owl_status owli_fail(owl_dom *dom)
{
    dom->has_failed = true;
    return OWL_MEMORY;
}

/* Whether an owner can act: CLOSED if the document is not open or has no such owner, MEMORY if it has failed. */
static inline owl_status owli_state(owl_owner owner)
{
    if (owner.index >= owner.dom->owner_count)
        return OWL_CLOSED;
    return owner.dom->has_failed ? OWL_MEMORY : OWL_OK;
}

/* Gives the owner with a word, which is added. */
static inline owl_status owli_add_owner(owl_dom *dom, const char *word, owl_owner *made)
{
    char(*words)[80] = (char(*)[80])realloc(dom->words, (dom->owner_count + 1) * sizeof *words);
    if (!words)
        return owli_fail(dom);
    dom->words = words;
    snprintf(words[dom->owner_count], sizeof *words, "%s", word);
    made->dom = dom;
    made->index = (uint32_t)dom->owner_count++;
    return OWL_OK;
}

/* Begins a line: the owner's word, and the command. Where the owner can't act nothing is put into the line, now or later. */
static inline owl_status owli_begin(owl_owner owner, const char *command)
{
    owl_dom *dom = owner.dom;
    owl_status status = owli_state(owner);
    dom->line.size = 0;
    dom->line.has_failed = status != OWL_OK;
    if (status)
        return status;
    owli_put(&dom->line, dom->words[owner.index], strlen(dom->words[owner.index]));
    owli_put(&dom->line, " ", 1);
    owli_put(&dom->line, command, strlen(command));
    return OWL_OK;
}

/* Puts an own node in the line; another owner's is refused, and so is none. */
static inline owl_status owli_node(owl_owner owner, owl_node node)
{
    char name[16];
    snprintf(name, sizeof name, "%c%u", owner.index ? 'm' : 'n', (unsigned)node.number);
    owli_word(&owner.dom->line, name);
    if (owl_is_none(node))
        return OWL_UNKNOWN;
    return node.owner == owner.index ? OWL_OK : OWL_FOREIGN;
}

/* Begins a line: the owner's word, the command, and a node. */
static inline owl_status owli_begin_on(owl_owner owner, const char *command, owl_node node)
{
    owl_status status = owli_begin(owner, command);
    return status ? status : owli_node(owner, node);
}

/* Puts the words of a listener or an event in the line. */
static inline void owli_words(owli_text *line, int words)
{
    static const char *const names[] = {"capture", "once", "passive", "bubbles", "cancelable", "composed"};
    for (int bit = 0; bit < 6; bit++)
        if (words & 1 << bit)
            owli_word(line, names[bit]);
}

/* Puts the label of a listener in the line. */
static inline void owli_label(owl_dom *dom, size_t listener)
{
    char label[32];
    snprintf(label, sizeof label, "l%lu", (unsigned long)listener);
    owli_word(&dom->line, label);
}

/* Cuts the reply off the answer, which ends in it, and gives it without its owner's word. */
static inline char *owli_cut_reply(char *text, size_t size)
{
    char *reply = text + size - 1;
    *reply = 0;
    while (reply > text && reply[-1] != '\n')
        reply--;
    char *behind = strchr(reply, ' ') + 1;
    *reply = 0;
    return behind;
}

/* Runs the line, and takes a copy of the answer apart: `value` is the reply's, and *told a copy of the lines in front of it, or NULL. The turn is
 * then as it is given here, if the line was not refused. */
static inline owl_status owli_send(owl_dom *dom, uint32_t turn, char **told)
{
    const char *text;
    size_t size;
    *told = NULL;
    if (dom->line.has_failed || dom->has_failed)
        return owli_fail(dom);
    owlantimony_status status = owlantimony_line(&dom->session, dom->line.bytes, dom->line.size, &size);
    if (status == OWLANTIMONY_DONE)
        status = owlantimony_answer(&dom->session, &text, &size);
    if (status != OWLANTIMONY_DONE)
        return owli_fail(dom);
    dom->answer.size = 0;
    dom->answer.has_failed = false;
    owli_put(&dom->answer, text, size);
    if (dom->answer.has_failed)
        return owli_fail(dom);
    char *reply = owli_cut_reply(dom->answer.bytes, size);
    if (reply[0] == '!')
        return owli_refusal(reply + 2);
    dom->turn = turn;
    dom->value = reply[2] ? reply + 3 : reply + 2;
    if (!dom->answer.bytes[0])
        return OWL_OK;
    *told = (char *)malloc(strlen(dom->answer.bytes) + 1);
    if (!*told)
        return owli_fail(dom);
    strcpy(*told, dom->answer.bytes);
    return OWL_OK;
}

/* Ends the open turn, and tells what that brings, until nothing is left. The line that is being written is kept. */
static inline owl_status owli_end_turn(owl_dom *dom)
{
    owli_text kept = dom->line;
    owli_text none = {NULL, 0, 0, false};
    owl_status status = OWL_OK;
    dom->line = none;
    while (status == OWL_OK && dom->turn != UINT32_MAX) {
        char *told;
        owl_owner owner = {dom, dom->turn};
        status = owli_begin(owner, ".");
        status = status ? status : owli_send(dom, UINT32_MAX, &told);
        status = status ? status : owli_tell(dom, told);
    }
    free(dom->line.bytes);
    dom->line = kept;
    return status;
}

/* Ends another owner's turn, if one is open: callbacks are called here. Between this and the owner's own line there are none. */
static inline owl_status owli_take_turn(owl_owner owner)
{
    owl_dom *dom = owner.dom;
    return dom->turn == owner.index || dom->turn == UINT32_MAX ? OWL_OK : owli_end_turn(dom);
}

/* Runs the line of an owner, whose turn then it is. */
static inline owl_status owli_exchange(owl_owner owner, char **told)
{
    owl_status status = owli_take_turn(owner);
    return status ? status : owli_send(owner.dom, owner.index, told);
}

/* Runs a line that tells nobody anything. */
static inline owl_status owli_run(owl_owner owner)
{
    char *told = NULL;
    owl_status status = owli_exchange(owner, &told);
    free(told);
    return status;
}

/* Runs a command on nodes. */
static inline owl_status owli_run_on(owl_owner owner, const char *command, const owl_node *nodes, size_t count)
{
    owl_status status = owli_begin(owner, command);
    for (size_t at = 0; at < count && !status; at++)
        status = owli_node(owner, nodes[at]);
    return status ? status : owli_run(owner);
}

/* Reads the name of a node as an owner is shown it, and gives the place after it. */
static inline const char *owli_read_name(owl_owner owner, const char *name, owl_node *node)
{
    size_t size = strcspn(name, ",] :");
    *node = OWL_NONE;
    if (name[size] == ':') {
        for (size_t at = 0; at < owner.dom->owner_count; at++)
            if (strlen(owner.dom->words[at]) == size && !memcmp(owner.dom->words[at], name, size))
                node->owner = (uint32_t)at;
        name += size + 1;
    } else if (name[0] == 'm' || (name[0] == 'n' && name[1] != 'u')) {
        node->owner = name[0] == 'm' ? owner.index : 0;
    }
    if (!owl_is_none(*node))
        node->number = (uint32_t)strtoul(name + 1, NULL, 10);
    return name + strcspn(name, ",] ");
}

/* Reads a list of nodes. */
static inline owl_status owli_read_list(owl_owner owner, const char *list, owl_node *nodes, size_t room, size_t *count)
{
    size_t found = 0;
    owl_node node;
    for (const char *at = list; *at != ']' && at[1] != ']'; found++) {
        at = owli_read_name(owner, at + 1, &node);
        if (found < room && nodes)
            nodes[found] = node;
    }
    *count = found;
    return found > room ? OWL_SHORT : OWL_OK;
}

/* Reads what a node is from the text of its tree: the word for its kind, with all that stands after it. */
static inline owl_status owli_read_kind(owl_owner owner, owl_node node, char **kind)
{
    owl_status status = owli_run_on(owner, "tree", &node, 1);
    if (!status)
        *kind = strchr(owner.dom->value, ' ') + 1;
    return status;
}

/* Runs a line that makes a node. */
static inline owl_status owli_run_for_node(owl_owner owner, owl_node *made)
{
    owl_status status = owli_run(owner);
    if (!status)
        owli_read_name(owner, owner.dom->value, made);
    return status;
}

/* Makes room for one more listener, if memory is there. Listeners that are gone give theirs, and if half of all room is taken then, there is more. */
static inline bool owli_room_for_listener(owl_dom *dom)
{
    size_t kept = 0;
    if (dom->listener_count < dom->listener_room)
        return true;
    for (size_t at = 0; at < dom->listener_count; at++)
        if (dom->listeners[at].is_there)
            dom->listeners[kept++] = dom->listeners[at];
    dom->listener_count = kept;
    if (2 * kept < dom->listener_room)
        return true;
    size_t room = 2 * dom->listener_room + 16;
    owli_listener *listeners = (owli_listener *)realloc(dom->listeners, room * sizeof *listeners);
    if (!listeners)
        return false;
    dom->listeners = listeners;
    dom->listener_room = room;
    return true;
}

/* The listener with a number, or NULL if it is gone. Listeners stand in the order of their numbers, and stay in place until one is added. */
static inline owli_listener *owli_find_listener(owl_dom *dom, size_t listener)
{
    size_t from = 0, to = dom->listener_count;
    while (from < to) {
        size_t middle = from + (to - from) / 2;
        if (dom->listeners[middle].listener < listener)
            from = middle + 1;
        else
            to = middle;
    }
    bool is_it = from < dom->listener_count && dom->listeners[from].listener == listener && dom->listeners[from].is_there;
    return is_it ? &dom->listeners[from] : NULL;
}

/* Calls back for one line that shows an event: `X event LABEL TYPE phase=P target=A current=B related=C path=[..]`. */
static inline owl_status owli_tell_line(owl_dom *dom, char *line)
{
    owl_event event;
    char *field[9];
    for (int at = 0; at < 9; at++) {
        field[at] = line;
        line += strcspn(line, " ");
        if (*line)
            *line++ = 0;
    }
    owli_listener *found = owli_find_listener(dom, strtoul(field[2] + 1, NULL, 10));
    if (!found)
        return OWL_OK;
    owli_listener there = *found;
    owl_owner owner = {dom, there.node.owner};
    found->is_there = !there.is_once;
    owl_node *path = (owl_node *)malloc((strlen(field[8]) / 3 + 1) * sizeof *path);
    if (!path)
        return owli_fail(dom);
    event.type = field[3];
    event.phase = field[4][6] - '0';
    owli_read_name(owner, field[5] + 7, &event.target);
    owli_read_name(owner, field[6] + 8, &event.current);
    owli_read_name(owner, field[7] + 8, &event.related);
    owli_read_list(owner, field[8] + 5, path, SIZE_MAX, &event.path_count);
    event.path = path;
    there.callback(there.data, &event);
    free(path);
    return OWL_OK;
}

/* Calls back for all lines, and frees them. */
static inline owl_status owli_tell(owl_dom *dom, char *told)
{
    owl_status status = OWL_OK;
    for (char *line = told; line && *line && status == OWL_OK;) {
        char *end = strchr(line, '\n');
        *end = 0;
        status = owli_tell_line(dom, line);
        line = end + 1;
    }
    free(told);
    return status;
}

#endif
