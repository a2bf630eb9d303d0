/* What each refusal says. Written by tools/declarations.py from tools/refusals.txt; mixegorta.h includes it. */
#ifndef MIXEGORTA_CAUSES_H
#define MIXEGORTA_CAUSES_H

#include <stdint.h>

/* The cause that a refusal names, without a full stop: a text that lasts as long as the program. 0 is no refusal, and any
   other number is none of this version. */
static inline const char *mixegorta_cause(uint64_t number) {
    switch (number) {
    case 0:
        return "not refused";
    case 1:
        return "the job is malformed or longer than 4,700 bytes";
    case 2:
        return "the steps a year are not 1, 2, 4 or 12";
    case 3:
        return "the steps are outside 1 to 60";
    case 4:
        return "the reversion is above 6,000";
    case 5:
        return "the volatility is above 50,000";
    case 6:
        return "a length, row or node is not in the tree, a memory is too short, or the strikes are none or more than 16";
    case 7:
        return "a quote's kind, figure or discount is outside its limits, or the version is not 1 or 2";
    case 8:
        return "the nodes are too far apart";
    case 9:
        return "a node discount is 0 or above 1,100,000,000";
    case 10:
        return "a flow is above 2,000,000,000";
    case 11:
        return "the option's kind, side, expiry or strike is outside its limit";
    case 12:
        return "a value is above 8,000,000,000, or state prices sum above 2,000,000,100";
    case 13:
        return "the exercise dates are none, not strictly rising, or reach the last row";
    case 14:
        return "the asked nodes and those held are more than 3,600";
    case 15:
        return "the name is outside 1 to 8, already present at asking, not awaiting a commit at commit, or absent at release or pricing";
    case 16:
        return "a band has an end before its start, or a haircut, start or end out of range, or there are more than 40 bands";
    case 17:
        return "a row and a price are in no band";
    case 18:
        return "a row and a price are in two or more bands";
    case 19:
        return "the steps of a pair are above 20, or its two trees differ in them";
    default:
        return "not a refusal of this version";
    }
}

#endif
