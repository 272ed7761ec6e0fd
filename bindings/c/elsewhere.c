/* A supervisor whose children are on other desks: they are started in order, started again by the strategy, and ended from
 * the last to the first. Each desk has a crew, and all are in one thread here. */
#include <assert.h>
#include <stdio.h>

#include "pundewo.h"

enum { DESKS = 3, BOSS = 9, MOST = 64 };

static const pt_next wait_any = {.code = PT_NEXT_WAIT, .pick = {.code = PT_PICK_ANY}};

/* The desks, their crews, the supervisor on the first one, and what was told of their processes. */
typedef struct {
    pt_desk desks[DESKS];
    pt_crew crews[DESKS];
    pt_pid boss;
    pt_job told[MOST];
    size_t count;
} world;

static size_t step_desk(world *w, int place) {
    pt_job jobs[8];
    pt_turned turned;
    size_t count, taken;
    assert(pt_crew_step(&w->crews[place], &w->desks[place], 64, jobs, 8, &count, &turned) == PT_OK);
    for (size_t k = 0; k < count; k++) {
        assert(w->count < MOST);
        w->told[w->count++] = jobs[k];
        const pt_answer answer = {jobs[k].pid, wait_any};
        if (jobs[k].code == PT_JOB_START) assert(pt_crew_answer(&w->crews[place], &answer, 1, &taken) == PT_OK && taken == 1);
    }
    return count;
}

/* Ten steps of each desk. */
static void steps(world *w) {
    w->count = 0;
    for (int n = 0; n < 10; n++)
        for (int place = 0; place < DESKS; place++) step_desk(w, place);
}

/* The tag of the child that the supervisor wants started, or 0. */
static uint64_t to_start(world *w) {
    uint64_t tag = 0;
    const uint32_t code = pt_crew_child_to_start(&w->crews[0], w->boss, &tag);
    assert(code == PT_OK || (code == PT_NOTHING && tag == 0));
    return tag;
}

/* The program starts the child with this tag on this desk, once it is asked for it, and says so. */
static pt_pid start(world *w, uint64_t tag, int place) {
    pt_pid child;
    assert(to_start(w) == tag && to_start(w) == 0);
    assert(pt_crew_spawn(&w->crews[place], &w->desks[place], tag, (pt_next){.code = PT_NEXT_PROCEED}, &child) == PT_OK);
    assert(pt_crew_child_started(&w->crews[0], w->boss, tag + 1, child) == PT_NOTHING);
    assert(pt_crew_child_started(&w->crews[0], w->boss, tag, child) == PT_OK);
    assert(pt_crew_child_started(&w->crews[0], w->boss, tag, child) == PT_NOTHING);
    steps(w);
    return child;
}

static bool same(pt_pid a, pt_pid b) {
    return a.shard == b.shard && a.slot == b.slot && a.version == b.version;
}

/* The exits that were told, by their tags, in order. */
static size_t exits(const world *w, uint64_t *tags) {
    size_t count = 0;
    for (size_t k = 0; k < w->count; k++)
        if (w->told[k].code == PT_JOB_EXIT) tags[count++] = w->told[k].tag;
    return count;
}

static pt_child child_at(world *w, size_t place) {
    pt_child child;
    assert(pt_crew_child(&w->crews[0], w->boss, place, &child) == PT_OK);
    return child;
}

static void open_all(world *w) {
    assert(pt_open(w->desks, DESKS, (pt_config){.slots = 8, .top_version = 99, .lane = 8}) == PT_OK);
    for (int place = 0; place < DESKS; place++) assert(pt_crew_open(&w->crews[place]) == PT_OK);
}

/* A supervisor of three children: the first on the second desk, the second on its own, the third on the third desk. */
static void begin(world *w, uint32_t strategy, size_t most) {
    const pt_supervisor_spec spec = {.strategy = strategy, .most = most, .span = 100000};
    const pt_child_spec kids[3] = {{.tag = 20, .elsewhere = true}, {.tag = 30}, {.tag = 40, .elsewhere = true}};
    open_all(w);
    assert(pt_crew_spawn_supervisor(&w->crews[0], &w->desks[0], BOSS, spec, kids, 3, &w->boss) == PT_OK);
    assert(to_start(w) == 0);
    steps(w);
}

static void end(world *w) {
    for (int place = 0; place < DESKS; place++)
        assert(pt_crew_give_up(&w->crews[place]) == PT_OK);
    pt_gathered gathered = PT_NO_GATHERED;
    assert(pt_gather(w->desks, DESKS, &gathered) == PT_OK && pt_gathered_give_up(&gathered) == PT_OK);
}

/* All three start, in order: none before the one in front of it. */
static void begin_all(world *w, pt_pid pids[3], uint32_t strategy, size_t most) {
    begin(w, strategy, most);
    assert(!child_at(w, 0).has_pid && !child_at(w, 1).has_pid && !child_at(w, 2).has_pid);
    pids[0] = start(w, 20, 1);
    assert(same(child_at(w, 0).pid, pids[0]) && child_at(w, 1).has_pid && !child_at(w, 2).has_pid);
    pids[1] = child_at(w, 1).pid;
    pids[2] = start(w, 40, 2);
    assert(same(child_at(w, 2).pid, pids[2]) && to_start(w) == 0);
}

/* A child elsewhere crashes: all are ended, from the last to the first, and started again in order. */
static void all_start_again(void) {
    world w = {0};
    pt_pid pids[3];
    uint64_t tags[MOST];
    begin_all(&w, pids, PT_ONE_FOR_ALL, 2);
    assert(pt_exit(&w.desks[1], pids[0], (pt_reason){PT_OTHER, 7}) == PT_OK);
    steps(&w);
    assert(exits(&w, tags) == 3 && tags[0] == 20 && tags[1] == 40 && tags[2] == 30);
    const pt_pid first = start(&w, 20, 2);
    assert(first.shard == 2 && same(child_at(&w, 0).pid, first));
    assert(start(&w, 40, 1).shard == 1 && child_at(&w, 1).has_pid);
    end(&w);
}

/* A supervisor of two children elsewhere, under another process. */
static pt_pid begin_under(world *w) {
    pt_supervisor_spec spec = {.strategy = PT_ONE_FOR_ONE, .has_parent = true, .most = 1, .span = 9};
    const pt_child_spec kids[2] = {{.tag = 20, .elsewhere = true}, {.tag = 40, .elsewhere = true}};
    open_all(w);
    assert(pt_spawn(&w->desks[0], &spec.parent) == PT_OK);
    assert(pt_crew_spawn_supervisor(&w->crews[0], &w->desks[0], BOSS, spec, kids, 2, &w->boss) == PT_OK);
    steps(w);
    return spec.parent;
}

static void tell_to_end(world *w, pt_pid parent) {
    assert(pt_exit_signal(&w->desks[0], parent, w->boss, (pt_reason){PT_SHUTDOWN, 0}) == PT_OK);
    steps(w);
}

/* A supervisor that is a child of another process ends its children in order, over desks, and then itself. */
static void ends_in_order(void) {
    world w = {0};
    uint64_t tags[MOST];
    const pt_pid parent = begin_under(&w);
    start(&w, 20, 1);
    start(&w, 40, 2);
    tell_to_end(&w, parent);
    assert(exits(&w, tags) == 3 && tags[0] == 40 && tags[1] == 20 && tags[2] == BOSS);
    end(&w);
}

/* It is told to end while it waits for a child: it does so once the program has answered. */
static void ends_behind_the_answer(void) {
    world w = {0};
    uint64_t tags[MOST];
    tell_to_end(&w, begin_under(&w));
    assert(exits(&w, tags) == 0);
    start(&w, 20, 1);
    assert(exits(&w, tags) == 2 && tags[0] == 20 && tags[1] == BOSS && to_start(&w) == 0);
    end(&w);
}

/* A first start that fails ends the supervisor. One after a crash counts as a restart. */
static void not_started(void) {
    world w = {0};
    pt_pid pids[3];
    uint64_t tags[MOST];
    begin(&w, PT_ONE_FOR_ONE, 9);
    assert(to_start(&w) == 20);
    assert(pt_crew_child_not_started(&w.crews[0], w.boss, 21) == PT_NOTHING);
    assert(pt_crew_child_not_started(&w.crews[0], w.boss, 20) == PT_OK);
    assert(pt_crew_child_not_started(&w.crews[0], w.boss, 20) == PT_NOTHING);
    steps(&w);
    assert(exits(&w, tags) == 1 && tags[0] == BOSS);
    assert(pt_crew_child_not_started(&w.crews[0], w.boss, 20) == PT_NOTHING);
    end(&w);
    w = (world){0};
    begin_all(&w, pids, PT_ONE_FOR_ONE, 2);
    assert(pt_exit(&w.desks[1], pids[0], (pt_reason){PT_OTHER, 7}) == PT_OK);
    steps(&w);
    assert(to_start(&w) == 20 && pt_crew_child_not_started(&w.crews[0], w.boss, 20) == PT_OK);
    steps(&w);
    const pt_pid again = start(&w, 20, 2);
    assert(same(child_at(&w, 0).pid, again) && same(child_at(&w, 2).pid, pids[2]));
    end(&w);
}

/* A process that has exited, or is of the supervisor's own desk, is no child. */
static void no_newcomers(void) {
    world w = {0};
    pt_pid here;
    uint64_t tags[MOST];
    begin(&w, PT_ONE_FOR_ONE, 9);
    assert(to_start(&w) == 20 && pt_crew_spawn(&w.crews[0], &w.desks[0], 1, wait_any, &here) == PT_OK);
    assert(pt_crew_child_started(&w.crews[0], w.boss, 20, here) == PT_OK);
    steps(&w);
    assert(exits(&w, tags) == 1 && tags[0] == BOSS);
    end(&w);
}

/* A process that exits before its supervisor has linked with it was not started. */
static void gone_before_the_link(void) {
    world w = {0};
    pt_pid child;
    pt_pid pids[3];
    begin_all(&w, pids, PT_ONE_FOR_ONE, 2);
    assert(pt_exit(&w.desks[2], pids[2], (pt_reason){PT_OTHER, 7}) == PT_OK);
    steps(&w);
    assert(to_start(&w) == 40 && pt_crew_spawn(&w.crews[1], &w.desks[1], 40, wait_any, &child) == PT_OK);
    assert(pt_exit(&w.desks[1], child, (pt_reason){PT_OTHER, 8}) == PT_OK);
    assert(pt_crew_child_started(&w.crews[0], w.boss, 40, child) == PT_OK);
    steps(&w);
    const pt_pid again = start(&w, 40, 1);
    assert(same(child_at(&w, 2).pid, again) && same(child_at(&w, 0).pid, pids[0]));
    end(&w);
}

/* The child behind the one that crashed ends first, and both start again in order. The child in front stays. */
static void rest_starts_again(void) {
    world w = {0};
    pt_pid pids[3];
    uint64_t tags[MOST];
    begin_all(&w, pids, PT_REST_FOR_ONE, 2);
    assert(pt_exit(&w.desks[0], pids[1], (pt_reason){PT_OTHER, 7}) == PT_OK);
    steps(&w);
    assert(exits(&w, tags) == 2 && tags[0] == 30 && tags[1] == 40);
    assert(child_at(&w, 1).has_pid && !child_at(&w, 2).has_pid);
    start(&w, 40, 1);
    assert(same(child_at(&w, 0).pid, pids[0]) && child_at(&w, 2).has_pid);
    end(&w);
}

/* Children come and go at run time: one elsewhere is added, ended, started again, ended and forgotten. */
static void come_and_go(void) {
    world w = {0};
    pt_pid pids[3];
    uint64_t tags[MOST];
    size_t place = 9;
    const pt_child_spec added = {.tag = 50, .restart = PT_TEMPORARY, .shutdown = PT_BRUTAL_KILL, .elsewhere = true};
    begin_all(&w, pids, PT_ONE_FOR_ALL, 9);
    assert(pt_crew_start_child(&w.crews[0], w.boss, added, &place) == PT_OK && place == 3);
    steps(&w);
    assert(pt_crew_restart_child(&w.crews[0], w.boss, 50) == PT_CHILD_RESTARTING);
    start(&w, 50, 2);
    assert(pt_crew_restart_child(&w.crews[0], w.boss, 50) == PT_CHILD_RUNNING);
    assert(pt_crew_terminate_child(&w.crews[0], w.boss, 50) == PT_OK);
    steps(&w);
    assert(exits(&w, tags) == 1 && tags[0] == 50 && to_start(&w) == 0);
    assert(pt_crew_restart_child(&w.crews[0], w.boss, 50) == PT_OK);
    steps(&w);
    assert(start(&w, 50, 1).shard == 1);
    assert(pt_crew_terminate_child(&w.crews[0], w.boss, 50) == PT_OK);
    steps(&w);
    assert(pt_crew_delete_child(&w.crews[0], w.boss, 50, &place) == PT_OK && place == 3);
    assert(same(child_at(&w, 0).pid, pids[0]) && same(child_at(&w, 2).pid, pids[2]));
    end(&w);
}

/* Two thousand crashes on three desks. Each child is started again, on a desk that changes, and one start in five fails. */
static void many_crashes(void) {
    world w = {0};
    pt_pid pids[3];
    uint64_t tag;
    unsigned random = 7;
    begin_all(&w, pids, PT_ONE_FOR_ONE, 100000);
    for (int round = 0; round < 2000; round++) {
        random = random * 1103515245U + 12345U;
        const size_t crashed = (random >> 16) % 3;
        const pt_pid victim = child_at(&w, crashed).pid;
        assert(pt_exit(&w.desks[victim.shard], victim, (pt_reason){PT_OTHER, 7}) == PT_OK);
        for (steps(&w); (tag = to_start(&w)) != 0; steps(&w)) {
            const uint16_t place = (uint16_t)(1 + (random >> 20) % 2);
            pt_pid child;
            random = random * 1103515245U + 12345U;
            if ((random >> 16) % 5 == 0) {
                assert(pt_crew_child_not_started(&w.crews[0], w.boss, tag) == PT_OK);
                continue;
            }
            assert(pt_crew_spawn(&w.crews[place], &w.desks[place], tag, (pt_next){.code = PT_NEXT_PROCEED}, &child) == PT_OK);
            assert(pt_crew_child_started(&w.crews[0], w.boss, tag, child) == PT_OK);
        }
        for (size_t k = 0; k < 3; k++) assert(child_at(&w, k).has_pid);
        assert(!same(child_at(&w, crashed).pid, victim));
    }
    assert(child_at(&w, 1).pid.shard == 0);
    end(&w);
}

int main(void) {
    all_start_again();
    gone_before_the_link();
    rest_starts_again();
    come_and_go();
    many_crashes();
    ends_in_order();
    ends_behind_the_answer();
    not_started();
    no_newcomers();
    puts("elsewhere: children on other desks start in order, start again, and end from the last to the first");
    return 0;
}
