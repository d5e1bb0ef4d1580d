#include "points.h"

#include <string.h>

static uint32_t side_of(const khon_job *job, int tall) {
    return tall ? job->height : job->width;
}

static uint32_t size_of(const khon_job *job, int tall, uint32_t i) {
    return tall ? job->pieces[i].height : job->pieces[i].width;
}

/* ---- marks ---- */

static int is_led(const uint8_t *marks, const uint16_t *steps, uint32_t held, uint32_t c) {
    for (uint32_t j = 0; j < held && 2u * steps[j] <= c; j++)
        if (marks[c - steps[j]])
            return 1;
    return 0;
}

void stepped_points(const khon_job *job, int tall, points *found) {
    uint8_t marks[KHON_SIDE_MAX + 1] = {0};
    uint16_t steps[KHON_SIDE_MAX];
    uint32_t side = side_of(job, tall), held = 0;
    for (uint32_t i = 0; i < job->count; i++)
        if (size_of(job, tall, i) <= side)
            marks[size_of(job, tall, i)] = 1;
    found->count = 0;
    for (uint32_t c = 1; c <= side; c++) {
        if (is_led(marks, steps, held, c))
            marks[c] = 1;
        else if (marks[c])
            steps[held++] = (uint16_t)c;
        if (marks[c])
            found->at[found->count++] = (uint16_t)c;
    }
}

void passed_points(const khon_job *job, int tall, points *found) {
    uint8_t reached[KHON_SIDE_MAX + 1] = {1};
    uint32_t side = side_of(job, tall);
    found->count = 0;
    for (uint32_t s = 0; s <= side; s++)
        if (reached[s]) {
            if (s > 0)
                found->at[found->count++] = (uint16_t)s;
            for (uint32_t i = 0; i < job->count; i++)
                if (s + size_of(job, tall, i) <= side)
                    reached[s + size_of(job, tall, i)] = 1;
        }
}

/* ---- a sorted list ---- */

/* The index of the first point that is not below a sum. */
static uint32_t place_of(const points *list, uint32_t sum) {
    uint32_t low = 0, high = list->count;
    while (low < high) {
        uint32_t middle = (low + high) / 2;
        if (list->at[middle] < sum)
            low = middle + 1;
        else
            high = middle;
    }
    return low;
}

static void put_in(points *list, uint32_t k, uint32_t sum) {
    memmove(list->at + k + 1, list->at + k, (list->count - k) * sizeof *list->at);
    list->at[k] = (uint16_t)sum;
    list->count++;
}

/* A size on top of each point, and of nothing; answers whether the list grew. */
static int round_of(points *list, uint32_t size, uint32_t side) {
    uint32_t before = list->count, sum;
    for (uint32_t j = 0; j <= list->count; j++) {
        sum = (j == 0 ? 0 : list->at[j - 1]) + size;
        if (sum > side)
            break;
        uint32_t k = place_of(list, sum);
        if (k == list->count || list->at[k] != sum)
            put_in(list, k, sum);
    }
    return list->count != before;
}

void listed_points(const khon_job *job, int tall, points *found) {
    int grew = 1;
    found->count = 0;
    while (grew) {
        grew = 0;
        for (uint32_t i = 0; i < job->count; i++)
            grew |= round_of(found, size_of(job, tall, i), side_of(job, tall));
    }
}

/* ---- the same, copied ---- */

static points with(points list, uint32_t k, uint32_t sum) {
    put_in(&list, k, sum);
    return list;
}

static points after_round(points list, uint32_t size, uint32_t side) {
    for (uint32_t j = 0; j <= list.count; j++) {
        uint32_t sum = (j == 0 ? 0 : list.at[j - 1]) + size, k;
        if (sum > side)
            break;
        k = place_of(&list, sum);
        if (k == list.count || list.at[k] != sum)
            list = with(list, k, sum);
    }
    return list;
}

void copied_points(const khon_job *job, int tall, points *found) {
    uint32_t before;
    found->count = 0;
    do {
        before = found->count;
        for (uint32_t i = 0; i < job->count; i++)
            *found = after_round(*found, size_of(job, tall, i), side_of(job, tall));
    } while (found->count != before);
}
