/* A supervisor on one desk: it restarts its worker whenever that ends, and hears why. */
#include <assert.h>
#include <stdio.h>

#include "pundewo.h"
#include "pundewo_text.h"

static bool same(pt_pid a, pt_pid b) { return a.shard == b.shard && a.slot == b.slot && a.version == b.version; }

/* Turns the desk until nothing is handled. */
static void run(pt_desk *desk) {
    pt_turned turned;
    do assert(pt_turn(desk, 64, &turned) == PT_OK && turned.stopped == PT_OK);
    while (turned.handled != 0);
}

/* The boss is linked with this worker alone, traps exits, and monitors nobody. */
static void has_one_link(pt_desk *desk, pt_pid boss, pt_pid worker) {
    size_t count;
    pt_pid pid;
    pt_ids ids;
    pt_ref monitor;
    bool on;
    assert(pt_link_count(desk, boss, &count) == PT_OK && count == 1);
    assert(pt_link_at(desk, boss, 0, &pid, &ids) == PT_OK && same(pid, worker) && !ids.has_two);
    assert(pt_link_at(desk, boss, 1, &pid, &ids) == PT_NOTHING && same(pid, worker));
    assert(pt_traps(desk, boss, &on) == PT_OK && on && pt_traps(desk, worker, &on) == PT_OK && !on);
    assert(pt_lives_in(desk, worker.slot, &pid) == PT_OK && same(pid, worker));
    assert(pt_monitor_count(desk, boss, &count) == PT_OK && count == 0);
    assert(pt_monitor_at(desk, boss, 0, &monitor, &pid) == PT_NOTHING);
}

int main(void) {
    pt_desk desk = PT_NO_DESK;
    pt_pid boss, worker;
    pt_item item;
    bool was;
    uint32_t code = pt_open(&desk, 1, (pt_config){.slots = 4, .top_version = 100, .lane = 8, .start = 0});
    assert(code == PT_OK);
    assert(pt_spawn(&desk, &boss) == PT_OK && pt_trap(&desk, boss, true, &was) == PT_OK && !was);
    assert(pt_spawn_child(&desk, boss, true, &worker) == PT_OK);
    for (uint32_t k = 1; k <= 3; k++) {
        /* the worker breaks down, and the boss hears of it */
        assert(pt_exit(&desk, worker, (pt_reason){PT_OTHER, k}) == PT_OK);
        run(&desk);
        assert(pt_receive(&desk, boss, (pt_pick){.code = PT_PICK_EXIT_OF, .pid = worker}, &item) == PT_OK);
        assert(item.code == PT_ITEM_EXIT && item.reason.code == PT_OTHER && item.reason.number == k);
        pt_print_item(stdout, item);
        assert(pt_spawn_child(&desk, boss, true, &worker) == PT_OK);
        has_one_link(&desk, boss, worker);
        fputs(", restarted as ", stdout);
        pt_print_pid(stdout, worker);
        puts("");
    }
    /* what an ended process calls is refused, and changes nothing */
    pt_pid first = {0, 1, 1};
    size_t count = 7;
    assert(pt_link_count(&desk, first, &count) == PT_NOTHING && pt_traps(&desk, first, &was) == PT_NOTHING && count == 7);
    assert(pt_lives_in(&desk, 3, &first) == PT_NOTHING && same(first, (pt_pid){0, 1, 1}));
    assert(pt_send(&desk, first, boss, (pt_body){.kind = 1}) == PT_GONE);
    assert(pt_send(&desk, boss, first, (pt_body){.kind = 1}) == PT_NOPROC);
    assert(pt_send(&desk, boss, (pt_pid){0, 3, 1}, (pt_body){.kind = 1}) == PT_UNKNOWN);
    assert(pt_give_up(&desk) == PT_OK);
    /* an empty handle is a code, and no crash */
    assert(pt_give_up(&desk) == PT_EMPTY && pt_spawn(&desk, &boss) == PT_EMPTY);
    return 0;
}
