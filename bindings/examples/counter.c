/*
 * A widget in C: a counter with a closed tree, which the page hears of by its events alone. It writes no line of the protocol.
 *
 * Usage: counter
 */
#include "owlantimony_dom.h"

typedef struct counter {
    owl_owner owner;
    owl_node button, label;
    int count;
} counter;

/* The button was pressed: the label changes, and the page is told. */
static void pressed(void *data, const owl_event *event)
{
    counter *widget = (counter *)data;
    char text[16];
    snprintf(text, sizeof text, "%d", ++widget->count);
    if (owl_set_text(widget->owner, widget->label, text) == OWL_OK)
        owl_dispatch(widget->owner, event->current, "change", OWL_COMPOSED, OWL_NONE, NULL);
}

/* The page hears that a counter has changed. It sees the host, and nothing of what is inside. */
static void changed(void *data, const owl_event *event)
{
    (void)data;
    printf("the page hears %s at n%u, by a path of %u\n", event->type, (unsigned)event->target.number, (unsigned)event->path_count);
}

/* Builds the closed tree: a label and a button. */
static owl_status build(counter *widget)
{
    owl_owner owner = widget->owner;
    owl_status status = owl_create_element(owner, "output", &widget->label);
    status = status ? status : owl_create_element(owner, "button", &widget->button);
    status = status ? status : owl_set_text(owner, widget->label, "0");
    status = status ? status : owl_append(owner, owl_root(owner), widget->label);
    status = status ? status : owl_append(owner, owl_root(owner), widget->button);
    return status ? status : owl_listen(owner, widget->button, "press", OWL_LOG, 0, pressed, widget, NULL);
}

int main(void)
{
    owl_dom dom = OWL_DOM_INIT;
    owl_owner page;
    owl_node host;
    counter widget = {{NULL, 0}, {0, 0}, {0, 0}, 0};
    owl_status status = owl_open(&dom, &page);
    status = status ? status : owl_create_element(page, "div", &host);
    status = status ? status : owl_append(page, owl_root(page), host);
    status = status ? status : owl_listen(page, host, "change", OWL_LOG, 0, changed, NULL, NULL);
    status = status ? status : owl_attach(page, host, &widget.owner);
    status = status ? status : build(&widget);
    for (int press = 0; press < 2 && !status; press++)
        status = owl_dispatch(widget.owner, widget.button, "press", OWL_BUBBLES, OWL_NONE, NULL);
    printf("%s, %d\n", owl_message(status), widget.count);
    owl_close(&dom);
    return status != OWL_OK;
}
