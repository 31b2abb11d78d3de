/* How much stack the two calls take: every problem of the fixed list is planned and its certificate checked on a stack of our own,
 * painted before, and the deepest byte that has changed is found. usage: stack answers/list.bin */
#include <lotamife.h>
#include <pthread.h>
#include <stdio.h>
#include <stdlib.h>
#include <string.h>

enum { SIZE = 4 << 20, PAINT = 0xA5, N = LOTAMIFE_MAX_NODES, M = LOTAMIFE_MAX_EDGES };

struct call {
    size_t n, m;
    bool flag;
    uint16_t first[M], second[M], mates[N], parents[2 * N];
    int64_t weight[M], duals[2 * N];
    uint32_t answer;
};

static void *nothing(void *given)
{
    return given;
}

static void *plan(void *given)
{
    struct call *c = given;
    uint32_t place, steps;
    c->answer = lotamife_plan(c->n, c->first, c->m, c->second, c->m, c->weight, c->m, c->flag, UINT32_MAX,
        c->mates, N, c->duals, 2 * N, c->parents, 2 * N, &place, &steps);
    return given;
}

static void *check(void *given)
{
    struct call *c = given;
    uint32_t place;
    c->answer = lotamife_check(c->n, c->first, c->m, c->second, c->m, c->weight, c->m, c->flag,
        c->mates, N, c->duals, 2 * N, c->parents, 2 * N, &place);
    return given;
}

static unsigned char *painted(void)
{
    void *stack;
    if (posix_memalign(&stack, 4096, SIZE))
        exit(2);
    return memset(stack, PAINT, SIZE);
}

/* Runs a thread with this body on this stack. */
static void run(unsigned char *stack, void *(*body)(void *), struct call *c)
{
    pthread_attr_t attributes;
    pthread_t thread;

    pthread_attr_init(&attributes);
    if (pthread_attr_setstack(&attributes, stack, SIZE) || pthread_create(&thread, &attributes, body, c))
        exit(2);
    pthread_join(thread, NULL);
    pthread_attr_destroy(&attributes);
    if (c->answer != LOTAMIFE_DONE)
        exit(2);
}

/* The bytes from the deepest that has changed. */
static size_t taken(const unsigned char *stack)
{
    size_t untouched = 0;
    while (untouched < SIZE && stack[untouched] == PAINT)
        untouched++;
    return SIZE - untouched;
}

/* A little-endian number of so many bytes. */
static uint64_t number(FILE *list, int bytes)
{
    uint64_t out = 0;
    for (int i = 0; i < bytes; i++)
        out |= (uint64_t)(getc(list) & 255) << (8 * i);
    return out;
}

/* The next record's problem; its answers are passed over. */
static void read_call(FILE *list, struct call *c)
{
    c->n = number(list, 1);
    c->flag = number(list, 1);
    c->m = number(list, 2);
    for (size_t e = 0; e < c->m; e++) {
        c->first[e] = number(list, 1);
        c->second[e] = number(list, 1);
        c->weight[e] = (int32_t)number(list, 4);
    }
    number(list, 4);
    size_t pairs = number(list, 1);
    fseek(list, (long)(2 * pairs + c->n * (2 + 2 * 8 + 2 * 2)), SEEK_CUR);
}

int main(int count, char **words)
{
    static struct call c;
    FILE *list = count == 2 ? fopen(words[1], "rb") : NULL;
    unsigned char *own = painted(), *planned = painted(), *checked = painted();

    if (!list)
        return 2;
    run(own, nothing, &c);
    number(list, 4);
    for (uint64_t left = number(list, 4); left > 0; left--) {
        read_call(list, &c);
        run(planned, plan, &c);
        run(checked, check, &c);
    }
    size_t thread = taken(own);
    printf("plan %zu bytes, check %zu bytes (%zu of the thread itself taken off)\n", taken(planned) - thread, taken(checked) - thread, thread);
    return 0;
}
