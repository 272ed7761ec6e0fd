/* Two processes of one desk send each other messages; prints how many a second of processor time, the best of five. */
#define _POSIX_C_SOURCE 200809L /* clock_gettime */

#include <assert.h>
#include <stdio.h>
#include <stdlib.h>
#include <time.h>

#include "pundewo.h"

static double seconds(void) {
    struct timespec now;
    clock_gettime(CLOCK_PROCESS_CPUTIME_ID, &now);
    return (double)now.tv_sec + (double)now.tv_nsec / 1e9;
}

int main(int argc, char **argv) {
    long rounds = argc > 1 ? atol(argv[1]) : 200000;
    double best = 0;
    for (int k = 0; k < 5; k++) {
        pt_desk desk = PT_NO_DESK;
        pt_pid pids[2];
        pt_item item;
        pt_turned turned;
        assert(pt_open(&desk, 1, (pt_config){.slots = 65536, .top_version = UINT32_MAX, .lane = 8}) == PT_OK);
        assert(pt_spawn(&desk, &pids[0]) == PT_OK && pt_spawn(&desk, &pids[1]) == PT_OK);
        pt_pick pick = {.code = PT_PICK_KIND, .kind = 1};
        double begin = seconds();
        for (long num = 0; num < rounds; num++)
            for (int from = 0; from < 2; from++) {
                uint32_t code = pt_send(&desk, pids[from], pids[1 - from], (pt_body){.kind = 1, .num = num});
                code |= pt_turn(&desk, 64, &turned);
                code |= pt_receive(&desk, pids[1 - from], pick, &item);
                if (code != PT_OK || item.body.num != num) abort();
            }
        double speed = 2.0 * (double)rounds / (seconds() - begin) / 1e6;
        if (speed > best) best = speed;
        assert(pt_give_up(&desk) == PT_OK);
    }
    printf("%.2f million messages a second\n", best);
    return 0;
}
