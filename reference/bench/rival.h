// What a rival of the proved runner takes and gives: a C interpreter of the same rules, to measure against. It trusts its caller and
// refuses nothing. A source is built several times, by several compilers; RUN names its function in each build.
#ifndef RIVAL_H
#define RIVAL_H

#include <stddef.h>
#include <stdint.h>

enum { IDLE, RUNNING, ENDED, TRAPPED, WAITING };

struct rival_thread {
    uint8_t status, reason, id, count;
};

struct rival_record {
    uint8_t enabled, last;
    struct rival_thread threads[8];
    uint32_t turns[8];
};

// The numbers of include/korvammel.h.
enum rival_answer { RIVAL_STOPPED = 1, RIVAL_STUCK, RIVAL_SPENT };

typedef enum rival_answer rival_run(const uint32_t *program, size_t words, uint32_t *room, uint8_t *memory, size_t bytes,
                                    struct rival_record *record, uint32_t budget, uint32_t *issues, uint64_t *looks);

// The builds, by name: flat ones first.
struct rival {
    const char *name;
    rival_run *run;
};

const struct rival *rivals(size_t *count);

#endif
