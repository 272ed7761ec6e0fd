/* Timers, names, groups and a way in are refused memory at each piece that they take, once for each. The call says so and has
 * changed nothing, and the same call made again does it. No memory is kept in the end. */
#include <assert.h>
#include <stdio.h>
#include <string.h>

#include "pundewo.h"
#include "refusing.h"

enum { MANY = 60 };

typedef struct { pt_timers timers; pt_names names; pt_groups groups; pt_door door; pt_way_in way_in; } tools;

static pt_pid pid(uint32_t slot) { return (pt_pid){0, slot, 1}; }

static void name(char *to, int k) { sprintf(to, "p%d", k); }

/* All that was started, registered and not refused is there, and nothing else. */
static void look(tools *t, int started, int registered) {
    char text[8];
    pt_pid p;
    pt_name its = {{0}};
    uint64_t body, at;
    size_t count;
    assert(pt_timers_len(&t->timers, &count) == PT_OK && count == (size_t)started);
    for (int k = 0; k < started; k++)
        assert(pt_timers_get(&t->timers, (pt_timer){1000 - k, k}, &body) == PT_OK && body == (uint64_t)k);
    assert(pt_timers_get(&t->timers, (pt_timer){1000 - started, started}, &body) == PT_NOTHING);
    assert(pt_timers_next(&t->timers, &at) == (started ? PT_OK : PT_NOTHING) && (!started || at == 1001u - started));
    if (registered < 0) return;
    assert(pt_names_len(&t->names, &count) == PT_OK && count == (size_t)registered);
    for (int k = 0; k <= registered && k < MANY; k++) {
        name(text, k);
        assert(pt_names_whereis(&t->names, text, strlen(text), &p) == (k < registered ? PT_OK : PT_NOTHING));
        assert(pt_names_name_of(&t->names, pid(k), &its) == (k < registered ? PT_OK : PT_NOTHING));
        assert(k == registered || (p.slot == (uint32_t)k && strcmp(its.letters, text) == 0));
    }
}

/* The process k is in the groups k % 8 and 8, each process that joined and was not refused, and no other. */
static void look_in_groups(tools *t, int joined, bool in_both) {
    uint64_t times;
    size_t count, all = 0;
    pt_ref its;
    for (int k = 0; k <= joined && k < MANY; k++) {
        bool first = k < joined || in_both;
        assert(pt_groups_times(&t->groups, k % 8, pid(k), &times) == PT_OK && times == first);
        assert(pt_groups_times(&t->groups, 8, pid(k), &times) == PT_OK && times == (k < joined));
        assert(pt_groups_monitor_of(&t->groups, pid(k), &its) == (first ? PT_OK : PT_NOTHING));
        assert(!first || its.number == (uint64_t)k);
    }
    for (int group = 0; group < 8; group++)
        assert(pt_groups_len(&t->groups, group, &count) == PT_OK && (all += count) <= MANY);
    assert(all == (size_t)joined + in_both && pt_groups_len(&t->groups, 8, &count) == PT_OK && count == (size_t)joined);
}

/* Each process joins two groups, and once more where it was refused. */
static void join_all(tools *t) {
    pt_ref kept;
    uint32_t code;
    if ((code = pt_groups_open(&t->groups)) != PT_OK)
        assert(code == PT_MEMORY && t->groups.at == NULL && pt_groups_open(&t->groups) == PT_OK);
    for (int k = 0; k < MANY; k++)
        for (int second = 0; second < 2; second++) {
            uint64_t group = second ? 8 : k % 8;
            kept.number = 9999;
            if ((code = pt_groups_join(&t->groups, group, pid(k), (pt_ref){0, k}, &kept)) == PT_OK) continue;
            assert(code == PT_MEMORY && kept.number == 9999);
            look_in_groups(t, k, second);
            assert(pt_groups_join(&t->groups, group, pid(k), (pt_ref){0, k}, &kept) == PT_OK && kept.number == (uint64_t)k);
        }
    look_in_groups(t, MANY, false);
}

/* Each call, once more where it was refused. */
static void play(tools *t) {
    char text[8];
    pt_timer timer = {7, 7};
    uint32_t code;
    if ((code = pt_timers_open(&t->timers)) != PT_OK)
        assert(code == PT_MEMORY && t->timers.at == NULL && pt_timers_open(&t->timers) == PT_OK);
    for (int k = 0; k < MANY; k++) {
        if ((code = pt_timers_start(&t->timers, 1000 - k, k, &timer)) != PT_OK) {
            assert(code == PT_MEMORY && (k == 0 ? timer.number == 7 : timer.number == k - 1u));
            look(t, k, -1);
            assert(pt_timers_start(&t->timers, 1000 - k, k, &timer) == PT_OK);
        }
        assert(timer.at == 1000u - k && timer.number == (uint64_t)k);
    }
    if ((code = pt_names_open(&t->names)) != PT_OK)
        assert(code == PT_MEMORY && t->names.at == NULL && pt_names_open(&t->names) == PT_OK);
    for (int k = 0; k < MANY; k++) {
        name(text, k);
        if ((code = pt_names_register(&t->names, text, strlen(text), pid(k), (pt_ref){0, 1})) == PT_OK) continue;
        assert(code == PT_MEMORY);
        look(t, MANY, k);
        assert(pt_names_register(&t->names, text, strlen(text), pid(k), (pt_ref){0, 1}) == PT_OK);
    }
    look(t, MANY, MANY);
    join_all(t);
    if ((code = pt_door_open(&t->door, &t->way_in, 4)) != PT_OK) {
        assert(code == PT_MEMORY && t->door.at == NULL && t->way_in.at == NULL);
        assert(pt_door_open(&t->door, &t->way_in, 4) == PT_OK);
    }
}

int main(void) {
    static char buffer[BUFSIZ];
    long pieces = 0;
    setvbuf(stdout, buffer, _IOFBF, sizeof buffer);
    for (was_refused = true; was_refused; pieces++) {
        tools t = {PT_NO_TIMERS, PT_NO_NAMES, PT_NO_GROUPS, PT_NO_DOOR, PT_NO_WAY_IN};
        long before = taken;
        was_refused = false;
        refuse_in = pieces;
        play(&t);
        refuse_in = -1;
        assert(pt_timers_give_up(&t.timers) == PT_OK && pt_names_give_up(&t.names) == PT_OK);
        assert(pt_groups_give_up(&t.groups) == PT_OK);
        assert(pt_door_give_up(&t.door) == PT_OK && pt_way_in_give_up(&t.way_in) == PT_OK && taken == before);
    }
    printf("c: timers, names, groups and a way in were refused memory %ld times, and nothing was lost\n", pieces - 1);
    return pieces < 10;
}
