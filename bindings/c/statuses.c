/*
 * Calls each function where it answers another status than OWLANTIMONY_DONE, and with each request for memory refused in turn.
 * Writes what is not as it should be. Built with -Wl,--wrap=malloc,--wrap=realloc,--wrap=calloc.
 */
#include "owlantimony.h"

#include <stdio.h>
#include <string.h>

static int faults;
static long left = -1; /* how many requests for memory are granted; below 0 all are */

#include "refused_memory.h"

#define WANT(fact) ((fact) ? (void)0 : (void)(faults++, fprintf(stderr, "%s:%d: %s\n", __FILE__, __LINE__, #fact)))

/* All calls but the one that drops, on a handle: each answers this status. */
static void all_answer(owlantimony_session *session, owlantimony_status status)
{
    size_t size = 9;
    char text[4] = "abc";
    const char *answer = text;
    WANT(owlantimony_line(session, "p .", 3, &size) == status && size == 0);
    size = 9;
    WANT(owlantimony_finish(session, &size) == status && size == 0);
    size = 9;
    WANT(owlantimony_text(session, text, 4, &size) == status && size == 0);
    size = 9;
    WANT(owlantimony_view(session, "p", 1, text, 4, &size) == status && size == 0);
    WANT(!strcmp(text, "abc"));
    size = 9;
    WANT(owlantimony_answer(session, &answer, &size) == status && size == 0 && !answer);
}

/* Each status has words of its own. */
static void try_messages(void)
{
    for (int status = OWLANTIMONY_DONE; status <= OWLANTIMONY_NULL; status++)
        for (int other = OWLANTIMONY_DONE; other < status; other++)
            WANT(strcmp(owlantimony_message((owlantimony_status)status), owlantimony_message((owlantimony_status)other)));
    WANT(!strcmp(owlantimony_message((owlantimony_status)7), "no status"));
    WANT(OWLANTIMONY_VERSION_NUMBER >= 100 && strlen(OWLANTIMONY_VERSION) >= 5);
}

/* The answer where it stands: of no line yet, where memory is refused once, of a short line, a longer one and a short one again. */
static void try_answers(void)
{
    owlantimony_session session = OWLANTIMONY_SESSION_INIT;
    const char *text, *again;
    char copy[64];
    size_t size;
    WANT(owlantimony_new(&session) == OWLANTIMONY_DONE);
    left = 1;
    WANT(owlantimony_answer(&session, &text, &size) == OWLANTIMONY_MEMORY && size == 0 && !text);
    left = -1;
    WANT(owlantimony_answer(&session, &text, &size) == OWLANTIMONY_DONE && size == 0 && !text[0]);
    WANT(owlantimony_line(&session, "p new element div", 17, &size) == OWLANTIMONY_DONE);
    WANT(owlantimony_answer(&session, &text, &size) == OWLANTIMONY_DONE && size == 8 && !strcmp(text, "p ok n1\n"));
    WANT(owlantimony_answer(&session, &again, &size) == OWLANTIMONY_DONE && size == 8 && again == text);
    WANT(owlantimony_text(&session, copy, sizeof copy, &size) == OWLANTIMONY_DONE && size == 8 && !memcmp(copy, "p ok n1\n", 8));
    WANT(owlantimony_view(&session, "p", 1, copy, sizeof copy, &size) == OWLANTIMONY_DONE && size == 8);
    WANT(owlantimony_line(&session, "p tree n1", 9, &size) == OWLANTIMONY_DONE);
    WANT(owlantimony_answer(&session, &text, &size) == OWLANTIMONY_DONE && size == strlen(text));
    WANT(!strcmp(text, "p ok (n1 element div)\n"));
    WANT(owlantimony_line(&session, "p .", 3, &size) == OWLANTIMONY_DONE);
    WANT(owlantimony_answer(&session, &text, &size) == OWLANTIMONY_DONE && size == 5 && !strcmp(text, "p ok\n"));
    WANT(owlantimony_answer(&session, NULL, &size) == OWLANTIMONY_NULL && owlantimony_answer(NULL, &text, &size) == OWLANTIMONY_NULL);
    WANT(owlantimony_drop(&session) == OWLANTIMONY_DONE);
}

/* Null pointers, a closed handle, an open one, a buffer that is too short and a word that is no owner's. */
static void try_statuses(void)
{
    owlantimony_session session = OWLANTIMONY_SESSION_INIT;
    size_t size = 0;
    char text[64] = "";
    all_answer(&session, OWLANTIMONY_CLOSED_HANDLE);
    WANT(owlantimony_drop(&session) == OWLANTIMONY_CLOSED_HANDLE);
    WANT(owlantimony_new(NULL) == OWLANTIMONY_NULL && owlantimony_drop(NULL) == OWLANTIMONY_NULL);
    WANT(owlantimony_new(&session) == OWLANTIMONY_DONE);
    WANT(owlantimony_new(&session) == OWLANTIMONY_OPEN_HANDLE);
    WANT(owlantimony_line(&session, NULL, 1, &size) == OWLANTIMONY_NULL);
    WANT(owlantimony_line(&session, "p .", 3, NULL) == OWLANTIMONY_NULL);
    WANT(owlantimony_text(&session, NULL, 1, &size) == OWLANTIMONY_NULL);
    WANT(owlantimony_line(&session, NULL, 0, &size) == OWLANTIMONY_DONE && size == 8); /* "! owner", by docs/PROTOCOL.md */
    WANT(owlantimony_line(&session, "p new element div", 17, &size) == OWLANTIMONY_DONE && size == 8);
    WANT(owlantimony_text(&session, NULL, 0, &size) == OWLANTIMONY_SHORT && size == 8);
    WANT(owlantimony_text(&session, text, 7, &size) == OWLANTIMONY_SHORT && size == 8 && !text[0]);
    WANT(owlantimony_text(&session, text, 64, &size) == OWLANTIMONY_DONE && size == 8 && !strcmp(text, "p ok n1\n"));
    WANT(owlantimony_view(&session, "x", 1, text, 64, &size) == OWLANTIMONY_OWNER && size == 0);
    WANT(owlantimony_view(&session, "c1", 2, text, 64, &size) == OWLANTIMONY_DONE && size == 0);
    WANT(owlantimony_view(&session, "p", 1, text, 3, &size) == OWLANTIMONY_SHORT && size == 8);
    WANT(owlantimony_view(&session, "p", 1, text, 64, &size) == OWLANTIMONY_DONE && size == 8);
    WANT(owlantimony_drop(&session) == OWLANTIMONY_DONE && owlantimony_drop(&session) == OWLANTIMONY_CLOSED_HANDLE);
}

/* A session of two lines and a view where so many requests for memory are granted, and the next one is refused. Gives whether one
   was. */
static bool is_refused_after(long granted)
{
    owlantimony_session session = OWLANTIMONY_SESSION_INIT;
    size_t size;
    char text[64] = "";
    const char *answer = NULL;
    left = granted + 1;
    owlantimony_status status = owlantimony_new(&session);
    if (status == OWLANTIMONY_DONE)
        status = owlantimony_line(&session, "p new element div", 17, &size);
    if (status == OWLANTIMONY_DONE)
        status = owlantimony_line(&session, "p append n0 n1", 14, &size);
    if (status == OWLANTIMONY_DONE)
        status = owlantimony_view(&session, "p", 1, text, 64, &size);
    bool is_run = status == OWLANTIMONY_DONE;
    if (is_run)
        status = owlantimony_answer(&session, &answer, &size);
    left = -1;
    WANT(status == OWLANTIMONY_DONE || status == OWLANTIMONY_MEMORY);
    if (is_run)
        WANT(!strcmp(text, "p ok\n") && owlantimony_answer(&session, &answer, &size) == OWLANTIMONY_DONE && !strcmp(answer, text));
    else if (session.is_open)
        all_answer(&session, OWLANTIMONY_MEMORY);
    else
        all_answer(&session, OWLANTIMONY_CLOSED_HANDLE);
    owlantimony_drop(&session);
    return status == OWLANTIMONY_MEMORY;
}

int main(void)
{
    long tried = 0;
    try_messages();
    try_answers();
    try_statuses();
    while (tried < 1000 && is_refused_after(tried))
        tried++;
    WANT(tried > 3 && tried < 1000);
    printf("statuses: %ld requests for memory refused, %d faults\n", tried, faults);
    return faults != 0;
}
