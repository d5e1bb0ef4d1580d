/*
 * P and Q of a job as a list, from small to large, found in four ways: to be
 * measured beside the board's marks, and for the calls in hand.c. All of them go
 * up to the whole side, as P and Q do (rules 3.1 and 3.2).
 */
#ifndef POINTS_H
#define POINTS_H

#include "khonvertseg.h"

typedef struct {
    uint32_t count;
    uint16_t at[KHON_SIDE_MAX];
} points;

/* P, or Q where tall. */
typedef void points_finder(const khon_job *job, int tall, points *found);

/* As the library does: sizes marked, then steps up to half (decision 39). */
points_finder stepped_points;

/* Marks, each marked position passing all sizes on to later ones. */
points_finder passed_points;

/* Herz's way (1972, "Computation of F1 and G1"): a sorted list; while a round
   changes it, each size on top of each point is looked up, and where it is
   missing room is made in the list and it is put in. (The paper's own rounds
   stop at half of the side.) */
points_finder listed_points;

/* The same with a list that is copied whenever something is put in. */
points_finder copied_points;

#endif
