/* Powers, working levels and the setting of one interval: refusals 25 and 26. */
#include "paper.h"

/* The draw is in thousands of power units. */
int64_t paper_idle_power(const struct paper_levels *levels)
{
    return (int64_t)1000 * levels->draw;
}

int64_t paper_power(const struct paper_levels *levels, unsigned level)
{
    return (int64_t)levels->frequency[level] * levels->voltage[level] * levels->voltage[level];
}

/* Idling and all running levels, dropped or not. */
struct all_points {
    unsigned count;
    int64_t frequency[PAPER_LEVELS + 1], power[PAPER_LEVELS + 1];
};

static struct all_points all_points(const struct paper_levels *levels)
{
    struct all_points all = { .count = levels->count + 1, .power = { paper_idle_power(levels) } };
    for (unsigned i = 0; i < levels->count; i++) {
        all.frequency[i + 1] = levels->frequency[i];
        all.power[i + 1] = paper_power(levels, i);
    }
    return all;
}

/* Dropped when some lower a and higher c have (p_b - p_a)(f_c - f_a) >= (p_c - p_a)(f_b - f_a). */
static bool dropped(const struct all_points *all, unsigned b)
{
    const int64_t *f = all->frequency, *p = all->power;
    for (unsigned a = 0; a < b; a++)
        for (unsigned c = b + 1; c < all->count; c++)
            if ((p[b] - p[a]) * (f[c] - f[a]) >= (p[c] - p[a]) * (f[b] - f[a]))
                return true;
    return false;
}

struct paper_points paper_points(const struct paper_levels *levels)
{
    struct all_points all = all_points(levels);
    struct paper_points points = { .m = 0, .power = { all.power[0] } };
    for (unsigned b = 1; b < all.count; b++)
        if (!dropped(&all, b)) {
            points.m++;
            points.frequency[points.m] = all.frequency[b];
            points.power[points.m] = all.power[b];
        }
    return points;
}

/* Change 7 speaks of every table with the same working frequencies. */
bool paper_same_type(const struct paper_levels *one, const struct paper_levels *other)
{
    struct paper_points ours = paper_points(one), theirs = paper_points(other);
    for (unsigned k = 0; k <= ours.m && k <= theirs.m; k++)
        if (ours.frequency[k] != theirs.frequency[k])
            return false;
    return ours.m == theirs.m;
}

uint32_t paper_top(const struct paper_levels *levels)
{
    return levels->frequency[levels->count - 1];
}

/* The least k with load <= length x f_k. The load is above 0 and at most length x top frequency. */
unsigned paper_band(const struct paper_points *points, uint64_t length, uint64_t load)
{
    unsigned k = 1;
    while (load > length * (uint64_t)points->frequency[k])
        k++;
    return k;
}

struct ramyearly_setting_answer paper_setting(struct paper_bytes levels_bytes, uint32_t highest, uint32_t length, uint64_t load)
{
    struct paper_levels levels;
    struct paper_refusal refusal = paper_read_levels(levels_bytes, &levels);
    if (!refusal.number)
        refusal = paper_alter_levels(highest, &levels);
    if (refusal.number)
        return (struct ramyearly_setting_answer) { .number = refusal.number, .place = refusal.place };
    if (length < 1 || length > PAPER_TIME)
        return (struct ramyearly_setting_answer) { .number = 25 };
    if (load > (uint64_t)length * paper_top(&levels))
        return (struct ramyearly_setting_answer) { .number = 26 };
    if (load == 0)
        return (struct ramyearly_setting_answer) { .number = 0 };
    struct paper_points points = paper_points(&levels);
    unsigned k = paper_band(&points, length, load);
    return (struct ramyearly_setting_answer) {
        .band = k,
        .extra = load - length * (uint64_t)points.frequency[k - 1],
        .gap = (uint32_t)(points.frequency[k] - points.frequency[k - 1])
    };
}
