/* worst make N: prints the order of N keys in which the index's sort was found to compare the most, the rank of each key in a line.
   worst count N: reads such lines, ranks or equal numbers, and prints the comparisons and the exchanges a key that the sort makes of them.

   The order is made by running the heap backwards. Taking the last key out of a heap of m + 1 brings the key of place m down to a place p, and those above p up
   by one. Backwards, the key of p goes to place m, those above it come down by one, and a key that is later than all stands on top. What is free is p: any
   place whose key is not later than the one above m. The nearer to the top it is the more comparisons settling makes, since it comes up to it from a leaf. So p
   is the first of the highest such places, if they are three rows or more above the one that m hangs from; else the highest that leads to the next leaf, or the
   one after it, below which places will come, so that late keys stand above them; else the place above m, which always does. At last each key is exchanged with
   one below it, from the top on: that is the first phase backwards. */
#include <stdint.h>
#include <stdio.h>
#include <stdlib.h>
#include <string.h>

static long n;
static uint64_t *key, comparisons, exchanges;

static long above(long i) { return (i - 1) / 2; }

static int row(long i) { return 63 - __builtin_clzl((unsigned long)i + 1); }

static void exchange(long i, long j) {
    uint64_t held = key[i];
    key[i] = key[j];
    key[j] = held;
    exchanges++;
}

static long place(long m) {
    long hung = above(m), next = m % 2 ? hung + 1 : hung + 2, best = -1;
    for (int r = 1; best < 0 && r <= row(hung) - 3; r++)
        for (long i = (1L << r) - 1; i < (2L << r) - 1; i++)
            if (best < 0 && key[i] <= key[hung]) best = i;
    if (best < 0 && next < m)
        for (long i = next; i > 0 && key[i] <= key[hung]; i = above(i)) best = i;
    return best < 0 ? hung : best;
}

static void make(void) {
    key[0] = 0;
    for (long m = 1; m < n; m++) {
        long i = place(m);
        key[m] = key[i];
        for (; i > 0; i = above(i)) key[i] = key[above(i)];
        key[0] = (uint64_t)m;
    }
    for (long i = 0; i < n / 2; i++) exchange(i, 2 * i + 2 < n && key[2 * i + 2] < key[2 * i + 1] ? 2 * i + 2 : 2 * i + 1);
}

/* As in crates/index/src/sort.rt. */
static int comes(long i, long j) {
    comparisons++;
    return key[i] < key[j];
}

static void settle(long m, long i) {
    long at = i;
    while (at < m / 2) {
        at = 2 * at + 1;
        if (at + 1 < m && comes(at, at + 1)) at++;
    }
    while (i < at && !comes(i, at)) at = above(at);
    for (; i < at; at = above(at)) exchange(i, at);
}

static void sort(void) {
    for (long i = n / 2; i-- > 0;) settle(n, i);
    for (long m = n; --m > 0;) {
        exchange(0, m);
        settle(m, 0);
    }
    for (long i = 1; i < n; i++)
        for (long j = i; j > 0 && comes(j, j - 1); j--) exchange(j, j - 1);
}

int main(int words, char **word) {
    n = words == 3 ? atol(word[2]) : 0;
    if (n < 1 || n > 1 << 24) return 2;
    key = malloc((size_t)n * sizeof *key);
    if (!key) return 3;
    if (strcmp(word[1], "make") == 0) {
        make();
        for (long i = 0; i < n; i++) printf("%llu\n", (unsigned long long)key[i]);
        return 0;
    }
    for (long i = 0; i < n; i++) {
        long rank;
        if (scanf("%ld", &rank) != 1) return 2;
        key[i] = (uint64_t)rank << 32 | (uint64_t)i; /* of equal keys the earlier comes first */
    }
    sort();
    printf("%.1f %.1f\n", (double)comparisons / (double)n, (double)exchanges / (double)n);
}
