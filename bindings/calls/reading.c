/* Reads lines by the grammar of docs/PROTOCOL.md. */
#include "lines.h"

/*
 * The commands and what follows each: n a node, w a word, s a string, # a number, R I W O a range, an iterator, a walker, an observer, t a type or a
 * label, a an action, d a side, h what is shown, f a filter, m a move, l c e v the optional words of listen, unlisten, dispatch and observe.
 */
static const struct form {
    const char *name;
    command command;
    const char *parts;
} FORMS[] = {
    {"new element", NEW_ELEMENT, "w"}, {"new text", NEW_TEXT, "s"}, {"new comment", NEW_COMMENT, "s"}, {"new fragment", NEW_FRAGMENT, ""},
    {"document", NEW_DOCUMENT, ""}, {"attach", ATTACH, "n"}, {"append", APPEND, "nn"}, {"insert", INSERT, "nnn"}, {"replace", REPLACE, "nnn"},
    {"remove", REMOVE, "n"}, {"adopt", ADOPT, "nn"}, {"normalize", NORMALIZE, "n"}, {"set", SET, "nws"}, {"unset", UNSET, "nw"}, {"data", DATA, "ns"},
    {"replace-data", REPLACE_DATA, "n##s"}, {"split", SPLIT, "n#"}, {"text", SET_TEXT, "ns"}, {"tree", TREE, "n"}, {"attr", ATTR, "nw"},
    {"parent", PARENT, "n"}, {"docof", OWNER_DOCUMENT, "n"}, {"children", CHILDREN, "n"}, {"contains", CONTAINS, "nn"},
    {"connected", CONNECTED, "n"}, {"shadow-root", SHADOW_ROOT, "n"}, {"slot-of", SLOT_OF, "n"}, {"assigned", ASSIGNED, "n"}, {"query", QUERY, "ns"},
    {"matches", MATCHES, "ns"}, {"range-new", RANGE_NEW, ""}, {"range-start", RANGE_START, "Rn#"}, {"range-end", RANGE_END, "Rn#"},
    {"range-collapse", RANGE_COLLAPSE, "Rd"}, {"range-drop", RANGE_DROP, "R"}, {"range-get", RANGE_GET, "R"}, {"range-text", RANGE_TEXT, "R"},
    {"extract", EXTRACT, "R"}, {"delete", DELETE, "R"}, {"insert-node", INSERT_NODE, "Rn"}, {"iter-new", ITERATOR_NEW, "nhf"},
    {"iter-next", ITERATOR_NEXT, "I"}, {"iter-prev", ITERATOR_PREVIOUS, "I"}, {"iter-at", ITERATOR_AT, "I"}, {"walk-new", WALKER_NEW, "nhf"},
    {"walk", WALK, "Wm"}, {"walk-at", WALKER_AT, "W"}, {"walk-set", WALKER_SET, "Wn"}, {"listen", LISTEN, "nttal"}, {"unlisten", UNLISTEN, "nttc"},
    {"dispatch", DISPATCH, "nte"}, {"observer", OBSERVER, ""}, {"observe", OBSERVE, "Onv"}, {"take", TAKE, "O"}, {"disconnect", DISCONNECT, "O"},
    {"micro", MICROTASK, "t"}, {".", END_TURN, ""},
};

static const char *const ACTIONS[] = {"log", "stop-now", "stop", "cancel"};
static const uint32_t ACTION_NUMBERS[] = {OWL_LOG, OWL_STOP_NOW, OWL_STOP, OWL_CANCEL};
static const char *const SIDES[] = {"end", "start"};
static const char *const MOVES[] = {"parent", "first", "last", "next-sibling", "next", "previous-sibling", "previous"};
static const uint32_t MOVE_NUMBERS[] = {OWL_MOVE_PARENT, OWL_MOVE_FIRST, OWL_MOVE_LAST, OWL_MOVE_NEXT_SIBLING,
                                        OWL_MOVE_NEXT, OWL_MOVE_PREVIOUS_SIBLING, OWL_MOVE_PREVIOUS};
static const char *const KINDS[] = {"element", "text", "comment", "document", "fragment"};
static const uint32_t KIND_BITS[] = {1, 1 << 2, 1 << 7, 1 << 8, 1 << 10};
static const char *const LISTENER_WORDS[] = {"capture", "once", "passive"};
static const char *const EVENT_WORDS[] = {"bubbles", "cancelable", "composed"};
static const char *const OBSERVED[] = {"childList", "attributes", "characterData", "subtree", "attributeOldValue", "characterDataOldValue"};

static uint16_t units[MAX_LINE];

/* ---- what is taken from the front of the text, if it is there */

static void drop(bytes *text, size_t count)
{
    text->at += count;
    text->size -= count;
}

static bool take(bytes *text, const char *word)
{
    size_t size = strlen(word);
    bool is_there = text->size >= size && !memcmp(text->at, word, size);
    drop(text, is_there ? size : 0);
    return is_there;
}

/* Takes a word after a space, at whose end another space or the line's end stands. */
static bool take_optional(bytes *text, const char *word)
{
    bytes was = *text;
    if (take(text, " ") && take(text, word) && (text->size == 0 || *text->at == ' '))
        return true;
    *text = was;
    return false;
}

/* Takes one of some words, of which none begins with one that stands before it, and gives its place. */
static bool take_one(bytes *text, const char *const *words, size_t count, uint32_t *place)
{
    for (*place = 0; *place < count; ++*place)
        if (take(text, words[*place]))
            return true;
    return false;
}

static bool take_number(bytes *text, uint32_t *number)
{
    size_t size = 0;
    *number = 0;
    while (size < text->size && size < 9 && text->at[size] >= '0' && text->at[size] <= '9' && !(size == 1 && *number == 0))
        *number = *number * 10 + (uint32_t)(text->at[size++] - '0');
    drop(text, size);
    return size > 0;
}

static bool is_letter(uint8_t byte)
{
    return (byte >= 'a' && byte <= 'z') || (byte >= 'A' && byte <= 'Z');
}

static bool is_digit(uint8_t byte)
{
    return byte >= '0' && byte <= '9';
}

/* Takes so many bytes as a word of the line. */
static bool take_word(bytes *text, size_t size, line *to)
{
    bytes word = {text->at, size};
    to->words[to->word_count++] = word;
    drop(text, size);
    return size > 0;
}

static size_t name_size(bytes text)
{
    size_t size = 0;
    while (size < text.size && (is_letter(text.at[size]) || text.at[size] == '_' || (size && (is_digit(text.at[size]) || text.at[size] == '-'))))
        size++;
    return size;
}

static bool take_label(bytes *text, line *to)
{
    size_t size = 0;
    while (size < text->size && (is_letter(text->at[size]) || is_digit(text->at[size]) || (text->at[size] && strchr("-_.:", text->at[size]))))
        size++;
    return size <= 64 && take_word(text, size, to);
}

static bool take_any_word(bytes *text, line *to)
{
    size_t size = 0;
    while (size < text->size && text->at[size] != ' ')
        size++;
    return size && *text->at != '"' && take_word(text, size, to);
}

size_t component_word(bytes text)
{
    size_t whole = text.size;
    uint32_t number;
    if (!take(&text, "c"))
        return 0;
    for (int part = 0; part < 8; part++) {
        bytes was = text;
        if ((part && !take(&text, ".")) || !take_number(&text, &number) || number == 0)
            return part ? whole - was.size : 0;
    }
    return whole - text.size;
}

static bool take_node(bytes *text, line *to)
{
    bool is_page = *to->owner.at == 'p';
    named node = {false, 0};
    size_t word = component_word(*text);
    if (word) {
        drop(text, word);
        if (!take(text, ":m"))
            return false;
    } else if (take(text, "n")) {
        node.is_own = is_page;
    } else if (take(text, "m")) {
        node.is_own = !is_page;
    } else {
        return false;
    }
    bool is_there = take_number(text, &node.number);
    to->nodes[to->node_count++] = node;
    return is_there;
}

static bool take_hex(bytes *text, uint16_t *unit)
{
    static const char digits[] = "0123456789abcdef0123456789ABCDEF";
    *unit = 0;
    for (int place = 0; place < 4; place++) {
        const char *at = text->size && *text->at ? strchr(digits, *text->at) : NULL;
        if (!at)
            return false;
        *unit = (uint16_t)(*unit * 16 + (at - digits) % 16);
        drop(text, 1);
    }
    return true;
}

static bool take_string(bytes *text, line *to)
{
    if (!take(text, "\""))
        return false;
    to->units = units;
    while (!take(text, "\"")) {
        uint16_t unit;
        if (take(text, "\\u")) {
            if (!take_hex(text, &unit))
                return false;
        } else {
            bool is_escaped = take(text, "\\");
            if (text->size == 0 || (is_escaped && *text->at != '"' && *text->at != '\\'))
                return false;
            unit = *text->at;
            drop(text, 1);
        }
        units[to->unit_count++] = unit;
    }
    return true;
}

/* ---- parts with words of their own */

static bool take_shown(bytes *text, line *to)
{
    uint32_t place = 0, before = 0;
    if (take(text, "all")) {
        to->what_to_show = UINT32_MAX;
        return true;
    }
    do {
        if (!take_one(text, KINDS, 5, &place) || (to->what_to_show && place <= before))
            return false;
        before = place;
        to->what_to_show |= KIND_BITS[place];
    } while (take(text, ","));
    return true;
}

static bool take_filter(bytes *text, line *to)
{
    to->filter = OWL_ACCEPT;
    if (text->size == 0)
        return true;
    to->filter = take(text, " skip=") ? OWL_SKIP : take(text, " reject=") ? OWL_REJECT : OWL_ACCEPT;
    return to->filter != OWL_ACCEPT && take_word(text, name_size(*text), to);
}

static void take_flags(bytes *text, const char *const *words, size_t count, uint32_t first, line *to)
{
    for (size_t place = 0; place < count; place++)
        if (take_optional(text, words[place]))
            to->flags |= first << place;
}

static bool take_observed(bytes *text, line *to)
{
    take_flags(text, OBSERVED, 6, OWL_OBSERVE_CHILD_LIST, to);
    if (!take(text, " filter="))
        return true;
    to->flags |= OWL_OBSERVE_ATTRIBUTE_FILTER;
    bytes names = *text;
    size_t size = 0;
    do {
        size_t name = name_size(*text);
        drop(text, name);
        size += name + 1;
        if (name == 0)
            return false;
    } while (take(text, ","));
    return take_word(&names, size - 1, to);
}

static bool take_chosen(bytes *text, const char *const *words, const uint32_t *numbers, size_t count, line *to)
{
    uint32_t place;
    bool is_there = take_one(text, words, count, &place);
    to->numbers[to->number_count++] = !is_there ? 0 : numbers ? numbers[place] : place;
    return is_there;
}

static bool take_event(bytes *text, line *to)
{
    take_flags(text, EVENT_WORDS, 3, OWL_BUBBLES, to);
    return !take(text, " related ") || take_node(text, to);
}

static bool take_part(bytes *text, char part, line *to)
{
    char letter[2] = {(char)(part + 'a' - 'A'), 0};
    if (strchr("fcelv", part)) {
        take_flags(text, LISTENER_WORDS, part == 'l' ? 3 : part == 'c' ? 1 : 0, OWL_CAPTURE, to);
        return part == 'f' ? take_filter(text, to) : part == 'e' ? take_event(text, to) : part == 'v' ? take_observed(text, to) : true;
    }
    if (!take(text, " "))
        return false;
    switch (part) {
    case 'n': return take_node(text, to);
    case 'w': return take_any_word(text, to);
    case 's': return take_string(text, to);
    case 't': return take_label(text, to);
    case 'h': return take_shown(text, to);
    case 'a': return take_chosen(text, ACTIONS, ACTION_NUMBERS, 4, to);
    case 'd': return take_chosen(text, SIDES, NULL, 2, to);
    case 'm': return take_chosen(text, MOVES, MOVE_NUMBERS, 7, to);
    default: return (part == '#' || take(text, letter)) && take_number(text, &to->numbers[to->number_count++]);
    }
}

/* ---- whole lines */

static bool take_command(bytes text, line *to)
{
    for (size_t at = 0; at < sizeof FORMS / sizeof *FORMS; at++) {
        bytes rest = text;
        if (!take(&rest, FORMS[at].name) || (rest.size && *rest.at != ' '))
            continue;
        const char *part = FORMS[at].parts;
        while (*part && take_part(&rest, *part, to))
            part++;
        to->command = FORMS[at].command;
        return *part == 0 && rest.size == 0;
    }
    return false;
}

line read_line(bytes text)
{
    line to = {.units = units, .words = {{(const uint8_t *)"", 0}, {(const uint8_t *)"", 0}}};
    size_t word = text.size && *text.at == 'p' ? 1 : component_word(text);
    bytes whole = text, owner = {text.at, word};
    drop(&text, word);
    if (word == 0 || !take(&text, " "))
        return to;
    to.owner = owner;
    to.is_read = whole.size <= MAX_LINE;
    for (size_t at = 0; to.is_read && at < whole.size; at++)
        to.is_read = whole.at[at] >= 0x20 && whole.at[at] <= 0x7E;
    to.is_read = to.is_read && take_command(text, &to);
    return to;
}
