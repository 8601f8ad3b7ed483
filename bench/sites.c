/* The sites: families of job tables with fixed seeds. Every site can be served: its cycles are read off a random filling of
 * the intervals. */
#include "site.h"

#include <stdlib.h>
#include <string.h>

const char *const families[] = { "small", "tight", "nested", "chains", "equal", "levels", "worst" };
const int family_count = sizeof families / sizeof *families;

enum family { SMALL, TIGHT, NESTED, CHAINS, EQUAL, LEVELS, WORST };

static uint64_t state;

/* splitmix64 */
static uint64_t next(void)
{
    uint64_t z = state += 0x9e3779b97f4a7c15u;
    z = (z ^ (z >> 30)) * 0xbf58476d1ce4e5b9u;
    z = (z ^ (z >> 27)) * 0x94d049bb133111ebu;
    return z ^ (z >> 31);
}

static uint32_t below(uint32_t bound)
{
    return (uint32_t)(next() % bound);
}

static int rising(const void *a, const void *b)
{
    uint32_t x = *(const uint32_t *)a, y = *(const uint32_t *)b;
    return (x > y) - (x < y);
}

/* Different times below a bound, in order. */
static void pick_times(uint32_t *times, int count, uint32_t bound)
{
    for (int i = 0; i < count; i++) {
        int seen;
        do {
            times[i] = below(bound);
            seen = 0;
            for (int k = 0; k < i; k++)
                seen |= times[k] == times[i];
        } while (seen);
    }
    qsort(times, count, sizeof *times, rising);
}

static void shuffle(uint32_t *numbers, int count)
{
    for (int i = count - 1; i > 0; i--) {
        int k = (int)below(i + 1);
        uint32_t n = numbers[i];
        numbers[i] = numbers[k];
        numbers[k] = n;
    }
}

static void use_levels(struct site *s, int count, const uint32_t (*levels)[2])
{
    s->levels = count;
    for (int i = 0; i < count; i++) {
        s->frequency[i] = levels[i][0];
        s->voltage[i] = levels[i][1];
    }
}

static void choose_levels(struct site *s, int family)
{
    static const uint32_t pair[][2] = { { 2, 10 }, { 4, 20 } };
    static const uint32_t first[][2] = { { 300, 90 }, { 400, 100 }, { 533, 110 }, { 667, 120 }, { 800, 130 } };
    static const uint32_t second[][2] = { { 300, 140 }, { 350, 150 }, { 400, 160 }, { 450, 170 }, { 500, 180 } };
    static const uint32_t eight[][2] = { { 100, 90 }, { 200, 100 }, { 300, 110 }, { 400, 120 }, { 500, 130 }, { 600, 140 }, { 800, 170 }, { 1000, 200 } };
    if (family == SMALL)
        use_levels(s, 2, pair);
    else if (family == CHAINS)
        use_levels(s, 5, second);
    else if (family == LEVELS || family == WORST)
        use_levels(s, 8, eight);
    else
        use_levels(s, 5, first);
}

static void choose_windows(struct site *s, int family)
{
    uint32_t times[2 * MAX_JOBS];
    int n = s->jobs;
    pick_times(times, 2 * n, 1000000);
    if (family == TIGHT || family == LEVELS)
        shuffle(times, 2 * n);
    if (family == WORST)
        shuffle(times + n, n);
    for (int j = 0; j < n; j++) {
        uint32_t a, b;
        if (family == SMALL) {
            a = below(2 * n + 4);
            b = a + 1 + below(8);
        } else if (family == NESTED) {
            a = times[j];
            b = times[2 * n - 1 - j];
        } else if (family == CHAINS) {
            /* each window overlaps the next; the latest comes first, so that earlier ones push it on */
            int c = n - 1 - j;
            a = times[c == 0 ? 0 : 2 * c - 1];
            b = times[c == n - 1 ? 2 * n - 1 : 2 * c + 2];
        } else if (family == EQUAL) {
            a = 0;
            b = 1000000;
        } else if (family == WORST) {
            a = times[j];
            b = times[n + j];
        } else {
            a = times[2 * j];
            b = times[2 * j + 1];
        }
        s->release[j] = a < b ? a : b;
        s->deadline[j] = a < b ? b : a;
    }
}

/* How much of an interval's capacity is used, in thousandths. */
static uint32_t filling(int family)
{
    if (family == TIGHT || family == CHAINS || family == WORST)
        return 1000;
    if (family == SMALL)
        return below(600);
    if (family == EQUAL)
        return 900;
    if (family == LEVELS)
        return below(1001);
    return 200 + below(801);
}

/* Splits a budget of cycles among the jobs open in an interval. */
static void share_out(struct site *s, const struct network *w, int interval, int64_t budget)
{
    int open[MAX_JOBS], count = 0;
    int64_t weight[MAX_JOBS], sum = 0;
    for (int j = 0; j < s->jobs; j++)
        if (w->first[j] <= interval && interval < w->last[j])
            open[count++] = j;
    if (count == 0)
        return;
    for (int k = 0; k < count; k++)
        sum += weight[k] = below(2) ? 1 + below(1000) : 0;
    if (sum == 0)
        sum = weight[0] = 1;
    int64_t left = budget;
    for (int k = 0; k < count; k++) {
        int64_t share = budget * weight[k] / sum;
        s->cycles[open[k]] += share;
        left -= share;
    }
    s->cycles[open[below(count)]] += left;
}

static void choose_cycles(struct site *s, int family)
{
    struct network w;
    int64_t used[MAX_INTERVALS] = { 0 };
    int64_t top = s->frequency[s->levels - 1];
    memset(s->cycles, 0, sizeof s->cycles);
    make_network(&w, s);
    /* one cycle for every job, so that none has 0 */
    for (int j = 0; j < s->jobs; j++)
        for (int i = w.first[j]; i < w.last[j]; i++)
            if (used[i] < w.size[i] * top) {
                used[i]++;
                s->cycles[j] = 1;
                break;
            }
    for (int i = 0; i < w.intervals; i++) {
        int64_t budget = w.size[i] * top * filling(family) / 1000 - used[i];
        if (budget > 0)
            share_out(s, &w, i, budget);
    }
}

static uint8_t *put(uint8_t *at, int width, uint32_t number)
{
    while (width--) {
        *at++ = number & 255;
        number >>= 8;
    }
    return at;
}

static void encode(struct site *s)
{
    uint8_t *at = put(s->level_bytes, 2, s->levels);
    for (int i = 0; i < s->levels; i++)
        at = put(at, 2, s->frequency[i]);
    for (int i = 0; i < s->levels; i++)
        at = put(at, 2, s->voltage[i]);
    s->level_length = at - s->level_bytes;
    at = put(s->job_bytes, 2, s->jobs);
    for (int j = 0; j < s->jobs; j++) {
        at = put(at, 4, s->release[j]);
        at = put(at, 4, s->deadline[j]);
    }
    for (int j = 0; j < s->jobs; j++)
        at = put(at, 4, s->cycles[j]);
    s->job_length = at - s->job_bytes;
    at = put(s->mark_bytes, 2, s->marks);
    for (int m = 0; m < s->marks; m++)
        at = put(at, 4, s->mark[m]);
    s->mark_length = at - s->mark_bytes;
}

void make_site(struct site *s, int family, int jobs, int seed)
{
    memset(s, 0, sizeof *s);
    state = (uint64_t)family * 1000003 + (uint64_t)jobs * 1009 + seed;
    s->family = families[family];
    s->jobs = jobs;
    s->seed = seed;
    choose_levels(s, family);
    choose_windows(s, family);
    choose_cycles(s, family);
    encode(s);
}

void set_marks(struct site *s)
{
    uint32_t first = s->release[0], last = s->deadline[0];
    for (int j = 1; j < s->jobs; j++) {
        first = s->release[j] < first ? s->release[j] : first;
        last = s->deadline[j] > last ? s->deadline[j] : last;
    }
    s->marks = MAX_MARKS;
    for (int m = 0; m < MAX_MARKS; m++)
        s->mark[m] = first + (last - first) * (m + 1) / (MAX_MARKS + 1);
    encode(s);
}

static void swap_bytes(uint8_t *a, uint8_t *b, int count)
{
    for (int i = 0; i < count; i++) {
        uint8_t byte = a[i];
        a[i] = b[i];
        b[i] = byte;
    }
}

void mix_steps(uint8_t *mixed, const uint8_t *plan, int steps)
{
    uint8_t *cells = mixed + 4, *cycles = cells + 2 * steps;
    memcpy(mixed, plan, 4 + 6 * steps);
    state = steps;
    for (int s = steps - 1; s > 0; s--) {
        int k = (int)below(s + 1);
        swap_bytes(cells + 2 * s, cells + 2 * k, 2);
        swap_bytes(cycles + 4 * s, cycles + 4 * k, 4);
    }
}

/* Each interval is one tick. Job j is open from tick j up to tick 135 - j, with a cycle in every tick. */
void make_longest(struct site *s, uint8_t *plan, uint8_t *prices)
{
    static const uint32_t level[][2] = { { 1000, 1 } };
    memset(s, 0, sizeof *s);
    s->family = "longest";
    s->jobs = MAX_JOBS;
    s->marks = MAX_MARKS;
    use_levels(s, 1, level);
    for (int j = 0; j < MAX_JOBS; j++) {
        s->release[j] = j;
        s->deadline[j] = MAX_INTERVALS - j;
        s->cycles[j] = s->deadline[j] - s->release[j];
    }
    for (int m = 0; m < MAX_MARKS; m++)
        s->mark[m] = MAX_JOBS + m;
    encode(s);
    uint8_t *cells = put(put(plan, 2, MAX_INTERVALS), 2, MAX_PAIRS), *cycles = cells + 2 * MAX_PAIRS;
    uint8_t *ends = put(prices, 2, MAX_INTERVALS), *numbers = ends + 4 * MAX_INTERVALS;
    for (int i = 0; i < MAX_INTERVALS; i++) {
        for (int j = 0; j < MAX_JOBS && j <= i && j < MAX_INTERVALS - i; j++) {
            cells = put(cells, 2, i * MAX_JOBS + j);
            cycles = put(cycles, 4, 1);
        }
        ends = put(ends, 4, i + 1);
        numbers = put(numbers, 1, 1);
    }
}

static int64_t common_divisor(int64_t a, int64_t b)
{
    while (b) {
        int64_t r = a % b;
        a = b;
        b = r;
    }
    return a;
}

/* The bands between working levels: from each working point the next one is that with the least rise per cycle, the
 * farther one where two are equal. */
static void make_bands(struct network *w, const struct site *s)
{
    int64_t f[MAX_LEVELS + 1] = { 0 }, p[MAX_LEVELS + 1] = { 0 };
    for (int i = 0; i < s->levels; i++) {
        f[i + 1] = s->frequency[i];
        p[i + 1] = f[i + 1] * s->voltage[i] * s->voltage[i];
    }
    w->bands = 0;
    w->scale = 1;
    for (int at = 0; at < s->levels;) {
        int best = at + 1;
        for (int c = at + 2; c <= s->levels; c++)
            if ((p[c] - p[at]) * (f[best] - f[at]) <= (p[best] - p[at]) * (f[c] - f[at]))
                best = c;
        int k = w->bands++;
        w->lower[k] = f[at];
        w->gap[k] = f[best] - f[at];
        w->rise[k] = p[best] - p[at];
        w->scale = w->scale / common_divisor(w->scale, w->gap[k]) * w->gap[k];
        at = best;
    }
    for (int k = 0; k < w->bands; k++)
        w->price[k] = w->scale / w->gap[k] * w->rise[k];
}

/* Sorts times and removes repeats. */
static int sort_times(uint32_t *times, int count)
{
    int kept = 0;
    qsort(times, count, sizeof *times, rising);
    for (int i = 0; i < count; i++)
        if (kept == 0 || times[i] != times[kept - 1])
            times[kept++] = times[i];
    return kept;
}

/* Releases and deadlines, and the marks between the first of them and the last. */
static int make_bounds(const struct site *s, uint32_t *times)
{
    for (int j = 0; j < s->jobs; j++) {
        times[2 * j] = s->release[j];
        times[2 * j + 1] = s->deadline[j];
    }
    int bounds = sort_times(times, 2 * s->jobs);
    uint32_t first = times[0], last = times[bounds - 1];
    for (int m = 0; m < s->marks; m++)
        if (first < s->mark[m] && s->mark[m] < last)
            times[bounds++] = s->mark[m];
    return sort_times(times, bounds);
}

void make_network(struct network *w, const struct site *s)
{
    uint32_t times[MAX_BOUNDS];
    int bounds = make_bounds(s, times);
    memset(w, 0, sizeof *w);
    w->jobs = s->jobs;
    w->intervals = bounds - 1;
    for (int i = 0; i < w->intervals; i++)
        w->size[i] = times[i + 1] - times[i];
    for (int j = 0; j < s->jobs; j++) {
        w->cycles[j] = s->cycles[j];
        for (int i = 0; i < bounds; i++) {
            if (times[i] == s->release[j])
                w->first[j] = i;
            if (times[i] == s->deadline[j])
                w->last[j] = i;
        }
        w->pairs += w->last[j] - w->first[j];
    }
    make_bands(w, s);
}

wide exact_energy(const struct network *w, const struct totals *t)
{
    wide energy = 0;
    for (int k = 0; k < w->bands; k++)
        energy += (wide)t->band[k] * w->price[k];
    return energy;
}

int64_t energy_figure(const struct network *w, const struct totals *t)
{
    int64_t figure = 0;
    for (int k = 0; k < w->bands; k++)
        figure += t->band[k] * w->rise[k] / w->gap[k];
    return figure;
}
