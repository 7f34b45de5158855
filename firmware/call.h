/* A call of each function of the library on an input of podcheck's, with every buffer lent at its full size but for the
 * flow, which gets what the analyser's memory leaves beside the others and the stack.
 * The same code runs on the device and on the host, and what it leaves in `results` is compared byte by byte. */
#ifndef CALL_H
#define CALL_H

#include "../include/pod.h"

/* The limits of a table: its states, its bytes, and those of a widened one. */
enum { STATES = 128, TABLE_LENGTH = 4487, WIDENED_LENGTH = 2949 };

/* Two tables, each behind its length of 2 bytes. */
enum { INPUT_LENGTH = 2 * (2 + TABLE_LENGTH) };

/* The longest tree, and as long a flow as fits. */
enum { TREE_LENGTH = 65535, FLOW_LENGTH = 150000 };

/* All that the library writes. The members leave no gaps between them on either side. */
struct results {
    uint32_t answer[POD_FIELDS];
    uint32_t alone[2][POD_FIELDS];    /* of each table by itself */
    uint32_t widening[2][POD_FIELDS]; /* of each table as an old one */
    uint16_t ranks[STATES * STATES];
    uint8_t flow[FLOW_LENGTH];
    uint8_t tree[TREE_LENGTH];
    uint8_t wide[2][WIDENED_LENGTH];
};

extern uint8_t input[INPUT_LENGTH];
extern struct results results;

/* Finds the tables in the first `length` bytes of the input, and fills the results so that what is not written shows.
 * A table that is cut short is taken as far as it goes. */
void prepare(unsigned length);

/* pod_check for the pair (0, 0). */
void check(void);

/* pod_check_table for either table. */
void check_each(void);

/* pod_widen for either table. */
void widen_each(void);

#endif
