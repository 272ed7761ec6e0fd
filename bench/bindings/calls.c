/* Makes one call of the C library so many times: calls NAME COUNT [WAITING]. WAITING is how many messages are in the mailbox
 * of its caller, or of `open` how many letters a lane holds. bench/bindings/instructions.sh counts what it takes. */
#include <assert.h>
#include <stdio.h>
#include <stdlib.h>
#include <string.h>

#include "pundewo.h"

static pt_desk desk;
static pt_pid a, b;

static uint32_t clock_call(void) { uint64_t out; return pt_clock(&desk, &out); }
static uint32_t alive_call(void) { bool out; return pt_alive(&desk, a, &out); }
static uint32_t knows_call(void) { bool out; return pt_knows(&desk, b, &out); }

static uint32_t peek_call(void) {
    pt_item out;
    return pt_peek(&desk, a, 0, &out) == PT_NOTHING ? PT_OK : PT_EMPTY;
}

static uint32_t receive_call(void) {
    pt_item out;
    return pt_receive(&desk, a, (pt_pick){.code = PT_PICK_ANY}, &out) == PT_NOTHING ? PT_OK : PT_EMPTY;
}

static uint32_t event_call(void) { pt_event out; return pt_event_at(&desk, 1, &out); }

static uint32_t message_call(void) {
    pt_item item;
    pt_turned turned;
    return pt_send(&desk, a, b, (pt_body){.kind = 1}) | pt_turn(&desk, 64, &turned)
        | pt_receive(&desk, b, (pt_pick){.code = PT_PICK_ANY}, &item);
}

static uint32_t life_call(void) {
    pt_pid p;
    uint32_t code = pt_spawn(&desk, &p);
    return code | pt_exit(&desk, p, (pt_reason){PT_NORMAL, 0});
}

/* A node of 64 desks of one slot, with lanes for so many letters: it is opened and given up. */
enum { DESKS = 64 };
static uint32_t letters;

static uint32_t open_call(void) {
    static pt_desk desks[DESKS];
    uint32_t code = pt_open(desks, DESKS, (pt_config){.slots = 1, .top_version = 1, .lane = letters});
    for (size_t k = 0; k < DESKS && code == PT_OK; k++) code = pt_give_up(&desks[k]);
    return code;
}

/* Pairs of processes with handlers in C, which send each other a message in turn. */
enum { PAIRS = 64 };
static pt_crew crew;

static const pt_next wait_any = {.code = PT_NEXT_WAIT, .pick = {.code = PT_PICK_ANY}};

/* The crew of so many pairs, with a message on its way in each. */
static void begin_pairs(int pairs) {
    assert(pt_crew_open(&crew) == PT_OK);
    for (int k = 0; k < pairs; k++) {
        pt_pid one, two;
        assert(pt_crew_spawn(&crew, &desk, 1, wait_any, &one) == PT_OK);
        assert(pt_crew_spawn(&crew, &desk, 2, wait_any, &two) == PT_OK);
        assert(pt_send(&desk, one, two, (pt_body){.kind = 1}) == PT_OK);
    }
}

/* A step, which has a job for one of each pair; each handler sends the message back, and waits. */
static uint32_t step_pairs(size_t pairs) {
    pt_job jobs[PAIRS];
    pt_answer answers[PAIRS];
    pt_turned turned;
    size_t count, taken;
    uint32_t code = pt_crew_step(&crew, &desk, PAIRS, jobs, PAIRS, &count, &turned);
    if (count != pairs) return PT_NOTHING;
    for (size_t k = 0; k < count; k++) {
        code |= pt_send(&desk, jobs[k].pid, jobs[k].item.pid, jobs[k].item.body);
        answers[k] = (pt_answer){jobs[k].pid, wait_any};
    }
    return code | pt_crew_answer(&crew, answers, count, &taken);
}

/* A call of b by a, as gen_server makes it, while so many messages of a third process wait for a: it takes the answer by
 * its sender. */
static uint32_t called_call(void) {
    pt_ref monitor;
    pt_item item;
    pt_turned turned;
    bool wrote;
    pt_pick by_sender = {.code = PT_PICK_FROM, .pid = b};
    return pt_monitor(&desk, a, b, &monitor) | pt_send(&desk, a, b, (pt_body){.kind = 1})
        | pt_turn(&desk, 64, &turned) | pt_receive(&desk, b, (pt_pick){.code = PT_PICK_ANY}, &item)
        | pt_send(&desk, b, a, (pt_body){.kind = 2}) | pt_turn(&desk, 64, &turned)
        | pt_receive(&desk, a, by_sender, &item) | pt_demonitor(&desk, a, monitor, true, &wrote);
}

/* A process that a spawns and monitors exits, while so many messages wait for a: it takes the DOWN by its reference. */
static uint32_t down_call(void) {
    pt_pid child;
    pt_ref monitor;
    pt_item item;
    pt_turned turned;
    uint32_t code = pt_spawn(&desk, &child);
    code |= pt_monitor(&desk, a, child, &monitor) | pt_turn(&desk, 64, &turned);
    code |= pt_exit(&desk, child, (pt_reason){PT_NORMAL, 0}) | pt_turn(&desk, 64, &turned);
    return code | pt_receive(&desk, a, (pt_pick){.code = PT_PICK_DOWN_OF, .reference = monitor}, &item);
}

/* So many messages of a third process wait for a. */
static void wait_for_a(long items) {
    pt_pid third;
    pt_turned turned;
    assert(pt_spawn(&desk, &third) == PT_OK);
    for (long k = 0; k < items; k++) {
        assert(pt_send(&desk, third, a, (pt_body){.kind = 3}) == PT_OK);
        assert(pt_turn(&desk, 64, &turned) == PT_OK);
    }
}

static uint32_t crew_call(void) { return step_pairs(1); }
static uint32_t crew_64_call(void) { return step_pairs(PAIRS); }

static const struct { const char *name; uint32_t (*call)(void); } calls[] = {
    {"clock", clock_call}, {"alive", alive_call}, {"knows", knows_call}, {"peek", peek_call},
    {"receive", receive_call}, {"event_at", event_call}, {"message", message_call}, {"life", life_call},
    {"called", called_call}, {"down", down_call}, {"open", open_call}, {"crew", crew_call}, {"crew_64", crew_64_call},
};

int main(int argc, char **argv) {
    assert(argc == 3 || argc == 4);
    long count = atol(argv[2]);
    assert(pt_open(&desk, 1, (pt_config){.slots = 256, .top_version = 4000000, .lane = 64}) == PT_OK);
    assert(pt_spawn(&desk, &a) == PT_OK && pt_spawn(&desk, &b) == PT_OK);
    if (argc == 4 && !strcmp(argv[1], "open")) letters = (uint32_t)atol(argv[3]);
    else if (argc == 4) wait_for_a(atol(argv[3]));
    if (!strncmp(argv[1], "crew", 4)) begin_pairs(strcmp(argv[1], "crew") ? PAIRS : 1);
    for (size_t k = 0; k < sizeof calls / sizeof *calls; k++)
        if (!strcmp(argv[1], calls[k].name)) {
            for (long n = 0; n < count; n++)
                if (calls[k].call() != PT_OK) abort();
            if (crew.at) assert(pt_crew_give_up(&crew) == PT_OK);
            return pt_give_up(&desk) != PT_OK;
        }
    fprintf(stderr, "no call %s\n", argv[1]);
    return 1;
}
