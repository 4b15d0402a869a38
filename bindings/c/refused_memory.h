/*
 * Refuses memory to a test: `left` says how many requests are granted. The test is built with
 * -Wl,--wrap=malloc,--wrap=realloc,--wrap=calloc.
 */
void *__real_malloc(size_t size);
void *__real_realloc(void *block, size_t size);
void *__real_calloc(size_t count, size_t size);

static bool is_granted(void)
{
    if (left > 0)
        left--;
    return left != 0;
}

void *__wrap_malloc(size_t size)
{
    return is_granted() ? __real_malloc(size) : NULL;
}

void *__wrap_realloc(void *block, size_t size)
{
    return is_granted() ? __real_realloc(block, size) : NULL;
}

void *__wrap_calloc(size_t count, size_t size)
{
    return is_granted() ? __real_calloc(count, size) : NULL;
}
