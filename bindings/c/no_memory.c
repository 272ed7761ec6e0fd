/* Memory is refused: the call says so, nothing is lost, and the desk goes on when there is room again. */
#include <assert.h>
#include <stdio.h>
#include <sys/resource.h>

#include "pundewo.h"

static void limit(rlim_t bytes) {
    struct rlimit room;
    getrlimit(RLIMIT_AS, &room);
    room.rlim_cur = bytes;
    assert(setrlimit(RLIMIT_AS, &room) == 0);
}

int main(void) {
    pt_desk desk = PT_NO_DESK;
    pt_pid a, b;
    pt_turned turned;
    pt_item item;
    pt_gathered node = PT_NO_GATHERED;
    size_t events, after;
    assert(pt_open(&desk, 1, (pt_config){.slots = 4, .top_version = 9, .lane = 8}) == PT_OK);
    assert(pt_spawn(&desk, &a) == PT_OK && pt_spawn(&desk, &b) == PT_OK);
    limit((rlim_t)192 << 20);
    int64_t sent = 0;
    uint32_t code;
    while ((code = pt_send(&desk, a, b, (pt_body){.kind = 1, .num = sent})) == PT_OK) sent++;
    assert(code == PT_MEMORY && pt_event_count(&desk, &events) == PT_OK && events == (size_t)sent + 2);
    assert(pt_send(&desk, a, b, (pt_body){.kind = 1}) == PT_MEMORY);
    assert(pt_event_count(&desk, &after) == PT_OK && after == events);
    limit(RLIM_INFINITY);
    int64_t come = 0;
    while (come < sent) {
        assert(pt_turn(&desk, 64, &turned) == PT_OK && turned.stopped == PT_OK && turned.handled > 0);
        while (pt_receive(&desk, b, (pt_pick){.code = PT_PICK_ANY}, &item) == PT_OK) assert(item.body.num == come++);
    }
    assert(pt_gather(&desk, 1, &node) == PT_OK && pt_gathered_give_up(&node) == PT_OK);
    printf("c: memory was refused after %lld messages, and all came\n", (long long)sent);
    return 0;
}
