#include "call.h"

#include <string.h>

uint8_t input[INPUT_LENGTH];
struct results results;

static const uint8_t *tables[2];
static pod_size lengths[2];

void prepare(unsigned length)
{
    unsigned at = 0;
    for (int i = 0; i < 2; i++) {
        unsigned stated = 0;
        if (length - at >= 2) {
            stated = input[at] + 256u * input[at + 1];
            at += 2;
        } else {
            at = length;
        }
        tables[i] = input + at;
        lengths[i] = stated < length - at ? stated : length - at;
        at += lengths[i];
    }
    memset(&results, 0xA5, sizeof results);
}

void check(void)
{
    pod_check(tables[0], lengths[0], tables[1], lengths[1], 0, 0,
              results.ranks, sizeof results.ranks / sizeof results.ranks[0],
              results.flow, sizeof results.flow,
              results.tree, sizeof results.tree,
              results.answer, POD_FIELDS);
}

void check_each(void)
{
    for (int i = 0; i < 2; i++)
        pod_check_table(tables[i], lengths[i], results.alone[i], POD_FIELDS);
}

void widen_each(void)
{
    for (int i = 0; i < 2; i++)
        pod_widen(tables[i], lengths[i], results.wide[i], sizeof results.wide[i], results.widening[i], POD_FIELDS);
}
