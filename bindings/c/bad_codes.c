/* A code that means nothing, in each field of each call that gets one: the call answers PT_BAD_CODE, before it looks at
 * the desk, and nothing has changed. So it is with a crew that is used with another desk, or with none. */
#include <assert.h>
#include <stdio.h>
#include <string.h>

#include "pundewo.h"

static const uint32_t bad[] = {6, 7, 8, 255, 256, 65536, 0x80000000, UINT32_MAX};

/* What a desk tells of itself. */
typedef struct { uint64_t clock, pending; size_t events, waiting; bool is_alive; } state;

static state state_of(pt_desk *desk, pt_pid p) {
    state s = {0};
    assert(pt_clock(desk, &s.clock) == PT_OK && pt_pending(desk, &s.pending) == PT_OK);
    assert(pt_event_count(desk, &s.events) == PT_OK && pt_alive(desk, p, &s.is_alive) == PT_OK);
    assert(!s.is_alive || pt_waiting(desk, p, &s.waiting) == PT_OK);
    return s;
}

static bool is_same(state a, state b) {
    return a.clock == b.clock && a.pending == b.pending && a.events == b.events && a.waiting == b.waiting
        && a.is_alive == b.is_alive;
}

/* What a crew tells of itself. */
typedef struct { size_t len, queued; bool is_idle, was_refused; pt_next next; uint64_t tag; } crew_state;

static crew_state state_of_crew(pt_crew *crew, pt_desk *desk, pt_pid p) {
    crew_state s;
    memset(&s, 0, sizeof s);
    assert(pt_crew_len(crew, &s.len) == PT_OK && pt_crew_queued(crew, &s.queued) == PT_OK);
    assert(pt_crew_is_idle(crew, desk, &s.is_idle) == PT_OK && pt_crew_refused(crew, &s.was_refused) == PT_OK);
    assert(pt_crew_next(crew, p, &s.next) == PT_OK && pt_crew_tag(crew, p, &s.tag) == PT_OK);
    return s;
}

static bool is_same_crew(crew_state a, crew_state b) {
    return a.len == b.len && a.queued == b.queued && a.is_idle == b.is_idle && a.was_refused == b.was_refused
        && a.next.code == b.next.code && a.tag == b.tag;
}

/* The same in what a process does next: in its own code, and in that of the pick or of the reason that counts. */
static int crews(void) {
    pt_desk desk = PT_NO_DESK, none = PT_NO_DESK;
    pt_crew crew = PT_NO_CREW, nobody = PT_NO_CREW;
    pt_pid p, out, was;
    pt_job jobs[2];
    pt_turned turned;
    size_t count, taken = 9;
    int tried = 0;
    assert(pt_open(&desk, 1, (pt_config){.slots = 4, .top_version = 9, .lane = 8}) == PT_OK);
    assert(pt_crew_open(&crew) == PT_OK && pt_crew_open(&crew) == PT_FILLED);
    assert(pt_crew_spawn(&crew, &desk, 7, (pt_next){.code = PT_NEXT_PROCEED}, &p) == PT_OK);
    assert(pt_crew_step(&crew, &desk, 9, jobs, 2, &count, &turned) == PT_OK && count == 1);
    state before = state_of(&desk, p);
    crew_state crew_before = state_of_crew(&crew, &desk, p);
    assert(crew_before.next.code == PT_NEXT_RUNNING && crew_before.tag == 7 && jobs[0].code == PT_JOB_START);
    memset(&out, 0xA5, sizeof out);
    memcpy(&was, &out, sizeof out);
    for (size_t k = 0; k < sizeof bad / sizeof *bad; k++) {
        const pt_next nexts[] = {{.code = bad[k]}, {.code = PT_NEXT_WAIT, .pick = {.code = bad[k]}},
            {.code = PT_NEXT_WAIT_UNTIL, .until = 9, .pick = {.code = bad[k]}},
            {.code = PT_NEXT_STOP, .reason = {.code = bad[k]}}};
        for (size_t n = 0; n < sizeof nexts / sizeof *nexts; n++) {
            pt_answer answers[2] = {{p, nexts[n]}, {p, {.code = PT_NEXT_PROCEED}}};
            assert(pt_crew_spawn(&crew, &desk, 8, nexts[n], &out) == PT_BAD_CODE && !memcmp(&was, &out, sizeof out));
            /* before PT_GONE, and behind PT_EMPTY */
            assert(pt_crew_spawn_child(&crew, &desk, (pt_pid){0, 3, 1}, true, 8, nexts[n], &out) == PT_BAD_CODE);
            assert(pt_crew_spawn(&nobody, &desk, 8, nexts[n], &out) == PT_EMPTY);
            assert(pt_crew_spawn(&crew, &none, 8, nexts[n], &out) == PT_EMPTY && !memcmp(&was, &out, sizeof out));
            taken = 9;
            assert(pt_crew_answer(&crew, answers, 2, &taken) == PT_BAD_CODE && taken == 0);
            assert(pt_crew_answer(&nobody, answers, 2, &count) == PT_EMPTY && count == 1);
            assert(is_same(before, state_of(&desk, p)));
            assert(is_same_crew(crew_before, state_of_crew(&crew, &desk, p)));
            tried++;
        }
    }
    /* a code that does not count may be any, and so may be what is not there */
    const pt_next wait = {.code = PT_NEXT_WAIT, .reason = {.code = 99}, .pick = {.code = PT_PICK_ANY}};
    const pt_answer good[2] = {{p, wait}, {p, wait}};
    assert(pt_crew_answer(&crew, good, 2, &taken) == PT_NOT_RUNNING && taken == 1);
    assert(pt_crew_answer(&crew, good, 0, &taken) == PT_OK && taken == 0);
    assert(pt_crew_answer(&crew, &(pt_answer){{9, 9, 9}, {.code = PT_NEXT_PROCEED}}, 1, &taken) == PT_NOT_RUNNING);
    assert(pt_crew_tag(&crew, (pt_pid){9, 9, 9}, &before.clock) == PT_NOTHING);
    assert(pt_crew_next_time(&crew, &before.clock) == PT_NOTHING && pt_crew_begin_again(&crew) == PT_OK);
    assert(pt_crew_step(&crew, &none, 9, jobs, 2, &count, &turned) == PT_EMPTY);
    assert(pt_crew_step(&nobody, &desk, 9, jobs, 2, &count, &turned) == PT_EMPTY);
    assert(pt_crew_give_up(&crew) == PT_OK && pt_crew_give_up(&crew) == PT_EMPTY && pt_give_up(&desk) == PT_OK);
    return tried;
}

/* What two desks and their crews tell, and whether all is as it was. */
typedef struct { state desks[2]; crew_state crews[2]; } node_state;

static node_state state_of_node(pt_desk *desks, pt_crew *crews, const pt_pid *pids) {
    node_state s;
    memset(&s, 0, sizeof s);
    for (int k = 0; k < 2; k++) {
        s.desks[k] = state_of(&desks[k], pids[k]);
        s.crews[k] = state_of_crew(&crews[k], &desks[k], pids[k]);
    }
    return s;
}

static bool is_same_node(node_state a, node_state b) {
    return is_same(a.desks[0], b.desks[0]) && is_same(a.desks[1], b.desks[1]) && is_same_crew(a.crews[0], b.crews[0])
        && is_same_crew(a.crews[1], b.crews[1]);
}

static void open_two(pt_desk *desks, pt_crew *crews, pt_pid *pids) {
    assert(pt_open(desks, 2, (pt_config){.slots = 4, .top_version = 9, .lane = 8}) == PT_OK);
    for (int k = 0; k < 2; k++) {
        assert(pt_crew_open(&crews[k]) == PT_OK);
        assert(pt_crew_spawn(&crews[k], &desks[k], 7, (pt_next){.code = PT_NEXT_PROCEED}, &pids[k]) == PT_OK);
    }
}

/* Swaps two handles: a handle is moved, and never copied. */
static void swap(pt_desk *desks) {
    void *first = desks[0].at;
    desks[0].at = desks[1].at;
    desks[1].at = first;
}

/* Each call of a crew that has no handle, or whose desk has none: it says so, and writes nothing. */
static int empty_crews(void) {
    pt_desk desk = PT_NO_DESK, none = PT_NO_DESK;
    pt_crew crew = PT_NO_CREW, nobody = PT_NO_CREW;
    const pt_next first = {.code = PT_NEXT_PROCEED};
    pt_pid p;
    struct { pt_pid pid; pt_job jobs[2]; size_t count; pt_turned turned; uint64_t number; bool yes; pt_next next; } out, was;
    assert(pt_open(&desk, 1, (pt_config){.slots = 4, .top_version = 9, .lane = 8}) == PT_OK);
    assert(pt_crew_open(&crew) == PT_OK && pt_crew_spawn(&crew, &desk, 7, first, &p) == PT_OK);
    state before = state_of(&desk, p);
    crew_state crew_before = state_of_crew(&crew, &desk, p);
    memset(&out, 0xA5, sizeof out);
    memcpy(&was, &out, sizeof out);
    const uint32_t codes[] = {
        pt_crew_spawn(&nobody, &desk, 7, first, &out.pid), pt_crew_spawn(&crew, &none, 7, first, &out.pid),
        pt_crew_spawn_child(&nobody, &desk, p, true, 7, first, &out.pid),
        pt_crew_spawn_child(&crew, &none, p, true, 7, first, &out.pid),
        pt_crew_step(&nobody, &desk, 9, out.jobs, 2, &out.count, &out.turned),
        pt_crew_step(&crew, &none, 9, out.jobs, 2, &out.count, &out.turned),
        pt_crew_answer(&nobody, &(pt_answer){p, first}, 1, &out.count),
        pt_crew_note_loss(&nobody, &desk, 0), pt_crew_note_loss(&crew, &none, 0),
        pt_crew_set_time(&nobody, 1), pt_crew_begin_again(&nobody), pt_crew_next_time(&nobody, &out.number),
        pt_crew_tag(&nobody, p, &out.number), pt_crew_next(&nobody, p, &out.next), pt_crew_len(&nobody, &out.count),
        pt_crew_queued(&nobody, &out.count), pt_crew_is_idle(&nobody, &desk, &out.yes),
        pt_crew_is_idle(&crew, &none, &out.yes), pt_crew_refused(&nobody, &out.yes), pt_crew_give_up(&nobody),
    };
    const int tried = sizeof codes / sizeof *codes;
    for (int k = 0; k < tried; k++) assert(codes[k] == PT_EMPTY);
    assert(!memcmp(&was, &out, sizeof out) && none.at == NULL && nobody.at == NULL);
    assert(pt_crew_note_loss(&crew, &desk, 0) == PT_NOTHING && pt_crew_open(&crew) == PT_FILLED);
    assert(is_same(before, state_of(&desk, p)) && is_same_crew(crew_before, state_of_crew(&crew, &desk, p)));
    assert(pt_crew_give_up(&crew) == PT_OK && pt_give_up(&desk) == PT_OK);
    return tried;
}

/* Swaps two crews. */
static void swap_crews(pt_crew *crews) {
    void *first = crews[0].at;
    crews[0].at = crews[1].at;
    crews[1].at = first;
}

/* Each call of a crew over a desk that is another's: nothing is written, and nothing has changed. */
static int other_desk(pt_crew *crew, pt_desk *desk, pt_pid p) {
    const pt_next first = {.code = PT_NEXT_PROCEED};
    struct { pt_pid pid; pt_job jobs[2]; size_t count; pt_turned turned; bool yes; } out, was;
    memset(&out, 0xA5, sizeof out);
    memcpy(&was, &out, sizeof out);
    const uint32_t codes[] = {
        pt_crew_spawn(crew, desk, 7, first, &out.pid), pt_crew_spawn_child(crew, desk, p, true, 7, first, &out.pid),
        pt_crew_step(crew, desk, 9, out.jobs, 2, &out.count, &out.turned), pt_crew_note_loss(crew, desk, 0),
        pt_crew_is_idle(crew, desk, &out.yes),
    };
    const int tried = sizeof codes / sizeof *codes;
    for (int k = 0; k < tried; k++) assert(codes[k] == PT_WRONG_DESK);
    /* behind PT_BAD_CODE */
    assert(pt_crew_spawn(crew, desk, 7, (pt_next){.code = 9}, &out.pid) == PT_BAD_CODE);
    assert(!memcmp(&was, &out, sizeof out));
    return tried;
}

/* A crew is that of its first desk, also once its node has gone on. One that has none yet may be that of any. */
static int wrong_desks(void) {
    pt_desk desks[2] = {PT_NO_DESK, PT_NO_DESK};
    pt_crew crews[2] = {PT_NO_CREW, PT_NO_CREW}, free_one = PT_NO_CREW;
    pt_gathered gathered = PT_NO_GATHERED;
    pt_quiet settled = PT_NO_QUIET;
    pt_history history = PT_NO_HISTORY;
    pt_job jobs[4];
    pt_turned turned;
    pt_pid pids[2], p;
    size_t count, taken;
    bool is_idle;
    int tried = 0;
    open_two(desks, crews, pids);
    for (int round = 0; round < 2; round++) {
        node_state before = state_of_node(desks, crews, pids);
        tried += other_desk(&crews[1], &desks[0], pids[0]) + other_desk(&crews[0], &desks[1], pids[1]);
        assert(is_same_node(before, state_of_node(desks, crews, pids)));
        swap_crews(crews);
        assert(pt_crews_go_on(crews, 2, desks, 2, &gathered, &settled, &history) == PT_WRONG_DESK), tried++;
        assert(gathered.at == NULL && settled.at == NULL && history.at == NULL);
        swap_crews(crews);
        assert(is_same_node(before, state_of_node(desks, crews, pids)));
        for (int k = 0; k < 2; k++) {
            assert(pt_crew_step(&crews[k], &desks[k], 9, jobs, 4, &count, &turned) == PT_OK && count == 1);
            assert(jobs[0].tag == 7 && jobs[0].code == (round == 0 ? PT_JOB_START : PT_JOB_PROCEED));
            pt_answer answer = {pids[k], {.code = PT_NEXT_PROCEED}};
            assert(pt_crew_answer(&crews[k], &answer, 1, &taken) == PT_OK);
        }
        assert(pt_crews_go_on(crews, 2, desks, 2, &gathered, &settled, &history) == PT_OK);
        assert(pt_history_give_up(&history) == PT_OK);
    }
    /* what only reads or fails makes it nobody's; a step or a process does */
    assert(pt_crew_open(&free_one) == PT_OK && pt_crew_note_loss(&free_one, &desks[1], 0) == PT_NOTHING);
    assert(pt_crew_is_idle(&free_one, &desks[1], &is_idle) == PT_OK);
    assert(pt_crew_spawn_child(&free_one, &desks[1], (pt_pid){1, 3, 9}, false, 7, (pt_next){.code = PT_NEXT_PROCEED}, &p)
        == PT_GONE);
    assert(pt_crew_step(&free_one, &desks[0], 9, jobs, 4, &count, &turned) == PT_OK && count == 0);
    assert(pt_crew_is_idle(&free_one, &desks[1], &is_idle) == PT_WRONG_DESK);
    assert(pt_crew_give_up(&free_one) == PT_OK);
    for (int k = 0; k < 2; k++) assert(pt_crew_give_up(&crews[k]) == PT_OK && pt_give_up(&desks[k]) == PT_OK);
    return tried;
}

/* A node that may not go on: it is as it was, and goes on once all is right. */
static int going_on(void) {
    pt_desk desks[2] = {PT_NO_DESK, PT_NO_DESK}, others[2] = {PT_NO_DESK, PT_NO_DESK}, missing[2] = {PT_NO_DESK, PT_NO_DESK};
    pt_crew crews[2] = {PT_NO_CREW, PT_NO_CREW}, strangers[2] = {PT_NO_CREW, PT_NO_CREW}, nobody = PT_NO_CREW;
    pt_gathered gathered = PT_NO_GATHERED, another = PT_NO_GATHERED;
    pt_quiet settled = PT_NO_QUIET, rest = PT_NO_QUIET;
    pt_history history = PT_NO_HISTORY, told = PT_NO_HISTORY;
    pt_pid pids[2], other_pids[2];
    int tried = 0;
    open_two(desks, crews, pids);
    open_two(others, strangers, other_pids);
    node_state before = state_of_node(desks, crews, pids);
#define REFUSED(code, crews, crew_count, desks, count, gathered, settled, history) \
    assert(pt_crews_go_on(crews, crew_count, desks, count, gathered, settled, history) == code), tried++
    REFUSED(PT_EMPTY, &nobody, 1, desks, 1, &gathered, &settled, &history);
    REFUSED(PT_EMPTY, crews, 0, desks, 0, &gathered, &settled, &history);
    REFUSED(PT_BAD_DESKS, crews, 1, desks, 2, &gathered, &settled, &history);
    REFUSED(PT_BAD_DESKS, crews, 2, desks, 1, &gathered, &settled, &history);
    REFUSED(PT_BAD_DESKS, crews, 1, desks, 1, &gathered, &settled, &history);
    REFUSED(PT_EMPTY, crews, 2, missing, 2, &gathered, &settled, &history);
    swap(desks);
    REFUSED(PT_BAD_DESKS, crews, 2, desks, 2, &gathered, &settled, &history);
    assert(pt_gather(desks, 2, &gathered) == PT_BAD_DESKS && pt_gather(desks, 1, &gathered) == PT_BAD_DESKS);
    swap(desks);
    /* a crew is missing at the second place */
    nobody.at = crews[1].at;
    crews[1].at = NULL;
    REFUSED(PT_EMPTY, crews, 2, desks, 2, &gathered, &settled, &history);
    crews[1].at = nobody.at;
    nobody.at = NULL;
    /* a history that somebody has there, and nodes */
    assert(pt_gather(others, 2, &another) == PT_OK && pt_gathered_history(&another, &told) == PT_OK);
    REFUSED(PT_FILLED, crews, 2, desks, 2, &gathered, &settled, &told);
    REFUSED(PT_FILLED, crews, 2, desks, 2, &another, &settled, &history);
    assert(pt_settle_unlisted(&another, &rest) == PT_OK);
    REFUSED(PT_FILLED, crews, 2, desks, 2, &gathered, &rest, &history);
    assert(gathered.at == NULL && settled.at == NULL && history.at == NULL && another.at == NULL && rest.at != NULL);
    assert(is_same_node(before, state_of_node(desks, crews, pids)));
    /* two nodes: the one that is gathered waits until the settled one has gone on */
    assert(pt_gather(desks, 2, &gathered) == PT_OK);
    REFUSED(PT_FILLED, crews, 2, desks, 2, &gathered, &rest, &history);
    /* not as many desks as the settled node has */
    REFUSED(PT_BAD_DESKS, strangers, 1, others, 1, &another, &rest, &history);
    assert(rest.at != NULL && another.at == NULL && history.at == NULL && others[0].at == NULL);
#undef REFUSED
    assert(pt_crews_go_on(strangers, 2, others, 2, &another, &rest, &history) == PT_OK && rest.at == NULL);
    assert(pt_history_give_up(&history) == PT_OK && pt_history_give_up(&told) == PT_OK);
    assert(pt_crews_go_on(crews, 2, desks, 2, &gathered, &settled, &history) == PT_OK && gathered.at == NULL);
    assert(settled.at == NULL && pt_history_give_up(&history) == PT_OK);
    for (int k = 0; k < 2; k++) {
        assert(state_of_crew(&crews[k], &desks[k], pids[k]).next.code == PT_NEXT_PROCEED);
        assert(pt_crew_give_up(&crews[k]) == PT_OK && pt_give_up(&desks[k]) == PT_OK);
        assert(pt_crew_give_up(&strangers[k]) == PT_OK && pt_give_up(&others[k]) == PT_OK);
    }
    return tried;
}

int main(void) {
    pt_desk desk = PT_NO_DESK, none = PT_NO_DESK;
    pt_pid p, other, strange = {9, 0, 1};
    pt_turned turned;
    int tried = 0;
    assert(pt_open(&desk, 1, (pt_config){.slots = 4, .top_version = 9, .lane = 8}) == PT_OK);
    assert(pt_spawn(&desk, &p) == PT_OK && pt_spawn(&desk, &other) == PT_OK);
    assert(pt_send(&desk, other, p, (pt_body){.kind = 1, .num = 7}) == PT_OK);
    assert(pt_turn(&desk, 9, &turned) == PT_OK && turned.handled == 1);
    state before = state_of(&desk, p);
    for (size_t k = 0; k < sizeof bad / sizeof *bad; k++) {
        pt_reason reason = {.code = bad[k], .number = 1};
        pt_pick pick = {.code = bad[k], .kind = 1, .pid = other};
        pt_item out, was;
        memset(&out, 0xA5, sizeof out);
        memcpy(&was, &out, sizeof out);
        assert(pt_receive(&desk, p, pick, &out) == PT_BAD_CODE && !memcmp(&was, &out, sizeof out));
        assert(pt_exit_signal(&desk, p, other, reason) == PT_BAD_CODE && pt_exit(&desk, p, reason) == PT_BAD_CODE);
        /* before PT_UNKNOWN and PT_GONE, and behind PT_EMPTY */
        assert(pt_exit_signal(&desk, p, strange, reason) == PT_BAD_CODE);
        assert(pt_receive(&desk, strange, pick, &out) == PT_BAD_CODE && pt_exit(&desk, strange, reason) == PT_BAD_CODE);
        assert(pt_receive(&none, p, pick, &out) == PT_EMPTY && !memcmp(&was, &out, sizeof out));
        assert(pt_exit_signal(&none, p, other, reason) == PT_EMPTY && pt_exit(&none, p, reason) == PT_EMPTY);
        assert(is_same(before, state_of(&desk, p)));
        tried++;
    }
    /* with a code that means something the same calls are made */
    pt_item item;
    assert(pt_receive(&desk, p, (pt_pick){.code = PT_PICK_KIND, .kind = 2}, &item) == PT_NOTHING);
    assert(pt_receive(&desk, p, (pt_pick){.code = PT_PICK_ANY}, &item) == PT_OK && item.body.num == 7);
    assert(pt_exit_signal(&desk, p, strange, (pt_reason){PT_OTHER, 1}) == PT_UNKNOWN);
    assert(pt_exit(&desk, strange, (pt_reason){PT_NORMAL, 0}) == PT_GONE);
    assert(pt_exit(&desk, p, (pt_reason){PT_OTHER, 1}) == PT_OK && !state_of(&desk, p).is_alive);
    assert(pt_give_up(&desk) == PT_OK);
    printf("c: %d bad codes in 3 calls and %d in 3 calls of a crew, each refused\n", tried, crews());
    int empty = empty_crews();
    printf("c: %d calls of a crew without a handle and %d of a node that may not go on, each refused\n", empty, going_on());
    printf("c: %d calls of a crew over the desk of another, each refused\n", wrong_desks());
    return 0;
}
