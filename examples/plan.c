/* Plans a small junction, prints the pairs, and has the certificate checked. Makes no use of the heap. */
#include <lotamife.h>
#include <stdio.h>

enum { N = 4, M = 3 };

int main(void)
{
    const uint16_t first[M] = { 0, 1, 2 };
    const uint16_t second[M] = { 1, 2, 3 };
    const int64_t weight[M] = { 5, 11, 5 };
    uint16_t mates[N], parents[2 * N];
    int64_t duals[2 * N];
    uint32_t place, steps;

    uint32_t answer = lotamife_plan(N, first, M, second, M, weight, M, false, 8 * N * (N + 1),
        mates, N, duals, 2 * N, parents, 2 * N, &place, &steps);
    if (answer != LOTAMIFE_DONE) {
        printf("answer %u at %u after %u steps\n", (unsigned)answer, (unsigned)place, (unsigned)steps);
        return 1;
    }
    printf("DONE after %u steps\n", (unsigned)steps);
    for (unsigned node = 0; node < N; node++) {
        if (mates[node] == LOTAMIFE_MISSING)
            continue;
        /* the mate is the end at the partner: end 2e is edge e's first node, end 2e+1 its second */
        unsigned edge = mates[node] / 2;
        unsigned partner = mates[node] % 2 == 0 ? first[edge] : second[edge];
        if (node < partner)
            printf("%u %u %lld\n", node, partner, (long long)weight[edge]);
    }

    uint32_t verdict = lotamife_check(N, first, M, second, M, weight, M, false,
        mates, N, duals, 2 * N, parents, 2 * N, &place);
    printf("certificate: %s\n", verdict == LOTAMIFE_YES ? "YES" : "NO");
    return verdict == LOTAMIFE_YES ? 0 : 1;
}
