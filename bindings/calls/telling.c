/* Writes what calls gave as lines of the protocol. */
#include "lines.h"

void write_node(script *in, uint32_t shown_to, owl_node node)
{
    if (node.owner == OWL_NONE.owner)
        fputs("null", in->to);
    else if (node.owner == OWL_PAGE || node.owner == shown_to)
        fprintf(in->to, "%c%u", node.owner == OWL_PAGE ? 'n' : 'm', (unsigned)node.number);
    else
        fprintf(in->to, "%s:m%u", in->owners[node.owner].word, (unsigned)node.number);
}

static void write_nodes(script *in, uint32_t shown_to, const owl_node *nodes, size_t count)
{
    fputc('[', in->to);
    for (size_t at = 0; at < count; at++) {
        if (at)
            fputc(',', in->to);
        write_node(in, shown_to, nodes[at]);
    }
    fputc(']', in->to);
}

static void write_units(script *in, const uint16_t *units, size_t count)
{
    fputc('"', in->to);
    for (size_t at = 0; at < count; at++) {
        if (units[at] == '"' || units[at] == '\\')
            fprintf(in->to, "\\%c", units[at]);
        else if (units[at] >= 0x20 && units[at] <= 0x7E)
            fputc(units[at], in->to);
        else
            fprintf(in->to, "\\u%04x", (unsigned)units[at]);
    }
    fputc('"', in->to);
}

static void write_bytes(script *in, const owl_answer *answer, owl_span span)
{
    if (span.count)
        fwrite(answer->bytes + span.at, 1, span.count, in->to);
}

/* ---- deliveries */

static void write_event(script *in, const owl_answer *answer, const owl_delivery *told)
{
    fputs("event ", in->to);
    write_bytes(in, answer, told->label);
    fputc(' ', in->to);
    write_bytes(in, answer, told->name);
    fprintf(in->to, " phase=%u target=", (unsigned)told->number);
    write_node(in, told->owner, told->target);
    fputs(" current=", in->to);
    write_node(in, told->owner, told->current);
    fputs(" related=", in->to);
    write_node(in, told->owner, told->related);
    fputs(" path=", in->to);
    write_nodes(in, told->owner, answer->nodes + told->path.at, told->path.count);
}

static void write_old_value(script *in, const owl_answer *answer, const owl_delivery *told)
{
    fputs(" old=", in->to);
    if (told->has_old_value)
        write_units(in, answer->units + told->old_value.at, told->old_value.count);
    else
        fputs("null", in->to);
}

static void write_record(script *in, const owl_answer *answer, const owl_delivery *told)
{
    static const char *const kinds[] = {"childList", "attributes", "characterData"};
    fprintf(in->to, "record o%u %s ", (unsigned)told->number, kinds[told->kind - OWL_CHILD_LIST]);
    write_node(in, told->owner, told->target);
    if (told->kind == OWL_CHILD_LIST) {
        fputs(" added=", in->to);
        write_nodes(in, told->owner, answer->nodes + told->added.at, told->added.count);
        fputs(" removed=", in->to);
        write_nodes(in, told->owner, answer->nodes + told->removed.at, told->removed.count);
        fputs(" prev=", in->to);
        write_node(in, told->owner, told->previous);
        fputs(" next=", in->to);
        write_node(in, told->owner, told->next);
        return;
    }
    if (told->kind == OWL_ATTRIBUTES) {
        fputs(" name=", in->to);
        write_bytes(in, answer, told->name);
    }
    write_old_value(in, answer, told);
}

uint32_t tell(script *in)
{
    owl_answer answer;
    uint32_t status = in->document.told ? dom_answer(&in->document, &answer) : OWL_OK;
    if (status || !in->document.told)
        return status;
    for (size_t at = 0; at < answer.delivery_count; at++) {
        const owl_delivery *told = answer.deliveries + at;
        fprintf(in->to, "%s ", in->owners[told->owner].word);
        if (told->kind == OWL_EVENT) {
            write_event(in, &answer, told);
        } else if (told->kind == OWL_MICROTASK) {
            fputs("micro ", in->to);
            write_bytes(in, &answer, told->label);
        } else {
            write_record(in, &answer, told);
        }
        fputc('\n', in->to);
    }
    return OWL_OK;
}

/* ---- trees */

static void write_row(script *in, const owl_answer *answer, const owl_row *row)
{
    static const char *const kinds[] = {[OWL_ELEMENT] = "element",   [OWL_TEXT] = "text",         [OWL_COMMENT] = "comment",
                                        [OWL_DOCUMENT] = "document", [OWL_FRAGMENT] = "fragment", [OWL_SHADOW_ROOT] = "shadow"};
    fputc('(', in->to);
    write_node(in, in->acts, row->node);
    fprintf(in->to, " %s", kinds[row->kind]);
    if (row->kind == OWL_ELEMENT) {
        fputc(' ', in->to);
        write_bytes(in, answer, row->name);
    }
    for (uint32_t at = 0; at < row->attributes.count; at++) {
        const owl_attribute *attribute = answer->attributes + row->attributes.at + at;
        fputc(' ', in->to);
        write_bytes(in, answer, attribute->name);
        fputc('=', in->to);
        write_units(in, answer->units + attribute->value.at, attribute->value.count);
    }
    if (row->kind == OWL_TEXT || row->kind == OWL_COMMENT) {
        fputc(' ', in->to);
        write_units(in, answer->units + row->data.at, row->data.count);
    }
}

/* Writes the rows of the last call: a row's bracket is closed before the next row that is not below it. */
static void write_rows(script *in, const owl_answer *answer)
{
    uint32_t open = 0;
    for (size_t at = 0; at < answer->row_count; at++) {
        for (; at && open != answer->rows[at].parent; open = answer->rows[open].parent)
            fputc(')', in->to);
        if (at)
            fputc(' ', in->to);
        write_row(in, answer, answer->rows + at);
        open = (uint32_t)at;
    }
    for (; open; open = answer->rows[open].parent)
        fputc(')', in->to);
    fputc(')', in->to);
}

/* ---- replies */

/* Begins a reply with a value. */
static void begin(script *in)
{
    fprintf(in->to, "%s ok ", in->owners[in->acts].word);
}

static uint32_t end(script *in)
{
    fputc('\n', in->to);
    return OWL_OK;
}

uint32_t say_done(script *in)
{
    fprintf(in->to, "%s ok\n", in->owners[in->acts].word);
    return OWL_OK;
}

uint32_t say_node(script *in, owl_node node)
{
    begin(in);
    write_node(in, in->acts, node);
    return end(in);
}

uint32_t say_nodes(script *in, const owl_node *nodes, size_t count)
{
    begin(in);
    write_nodes(in, in->acts, nodes, count);
    return end(in);
}

uint32_t say_truth(script *in, bool truth)
{
    begin(in);
    fputs(truth ? "true" : "false", in->to);
    return end(in);
}

uint32_t say_number(script *in, const char *letter, uint32_t number)
{
    begin(in);
    fprintf(in->to, "%s%u", letter, (unsigned)number);
    return end(in);
}

uint32_t say_units(script *in, const uint16_t *units, size_t count)
{
    begin(in);
    write_units(in, units, count);
    return end(in);
}

uint32_t say_tree(script *in)
{
    owl_answer answer;
    uint32_t status = dom_answer(&in->document, &answer);
    if (status)
        return status;
    begin(in);
    write_rows(in, &answer);
    return end(in);
}

uint32_t say_points(script *in, owl_point start, owl_point end_point)
{
    begin(in);
    write_node(in, in->acts, start.node);
    fprintf(in->to, " %u ", (unsigned)start.offset);
    write_node(in, in->acts, end_point.node);
    fprintf(in->to, " %u", (unsigned)end_point.offset);
    return end(in);
}
