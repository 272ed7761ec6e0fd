/* What a desk loses is told once and in order: what waited as a process exited, and messages that came too late. Whoever
 * keeps something beside a message knows so when nobody will ever take it. */
#include <assert.h>
#include <stdio.h>

#include "pundewo.h"

enum { SENDERS = 50, MESSAGES = 200 };

static pt_body numbered(int64_t num) {
    pt_body body = {0};
    body.kind = 1;
    body.num = num;
    return body;
}

static bool is_pid(pt_pid a, pt_pid b) {
    return a.shard == b.shard && a.slot == b.slot && a.version == b.version;
}

/* The loss at the front is of this process, with these numbers in order; it is passed then. */
static void is_lost(pt_desk *desk, pt_pid p, bool has_exited, uint32_t code, const int64_t *nums, size_t count) {
    pt_loss loss;
    pt_item item;
    assert(pt_loss_at(desk, 0, &loss) == PT_OK);
    assert(is_pid(loss.pid, p) && loss.has_exited == has_exited && loss.items == count);
    assert(!has_exited || loss.reason.code == code);
    for (size_t i = 0; i < count; i++)
        assert(pt_loss_item(desk, 0, i, &item) == PT_OK && item.code == PT_ITEM_USER && item.body.num == nums[i]);
    assert(pt_loss_item(desk, 0, count, &item) == PT_NOTHING);
    assert(pt_next_loss(desk) == PT_OK);
}

static void some(void) {
    pt_desk desks[1] = {PT_NO_DESK}, *desk = &desks[0];
    pt_config config = {8, UINT32_MAX, 8, 0};
    pt_turned turned;
    pt_pid a, b, c;
    pt_loss loss;
    pt_item item;
    assert(pt_keep_losses(desk, true) == PT_EMPTY && pt_loss_at(desk, 0, &loss) == PT_EMPTY);
    assert(pt_loss_item(desk, 0, 0, &item) == PT_EMPTY && pt_next_loss(desk) == PT_EMPTY);
    assert(pt_open(desks, 1, config) == PT_OK);
    assert(pt_spawn(desk, &a) == PT_OK && pt_spawn(desk, &b) == PT_OK && pt_spawn(desk, &c) == PT_OK);
    assert(pt_loss_at(desk, 0, &loss) == PT_NOTHING && pt_next_loss(desk) == PT_NOTHING);
    assert(pt_keep_losses(desk, true) == PT_OK);
    assert(pt_send(desk, a, b, numbered(1)) == PT_OK && pt_send(desk, a, b, numbered(2)) == PT_OK);
    assert(pt_send(desk, a, c, numbered(3)) == PT_OK && pt_turn(desk, 16, &turned) == PT_OK);
    assert(pt_send(desk, a, b, numbered(4)) == PT_OK); /* on its way as b exits */
    assert(pt_exit(desk, b, (pt_reason){PT_OTHER, 7}) == PT_OK);
    assert(pt_exit_signal(desk, a, c, (pt_reason){PT_KILL, 0}) == PT_OK && pt_turn(desk, 16, &turned) == PT_OK);
    is_lost(desk, b, true, PT_OTHER, (const int64_t[]){1, 2}, 2);
    is_lost(desk, b, false, 0, (const int64_t[]){4}, 1);
    is_lost(desk, c, true, PT_KILLED, (const int64_t[]){3}, 1);
    assert(pt_next_loss(desk) == PT_NOTHING);
    assert(pt_exit(desk, a, (pt_reason){PT_NORMAL, 0}) == PT_OK);
    is_lost(desk, a, true, PT_NORMAL, NULL, 0);
    pt_gathered node = PT_NO_GATHERED;
    assert(pt_gather(desks, 1, &node) == PT_OK && pt_gathered_give_up(&node) == PT_OK);
}

/* Of all that was sent each is taken, waits or is told lost, and none twice: over crashes, and over a settled node. */
static char fate[SENDERS * MESSAGES];

static void meets(int64_t num, char what) {
    assert(num >= 0 && num < SENDERS * MESSAGES && fate[num] == 0);
    fate[num] = what;
}

static void tell_losses(pt_desk *desk) {
    pt_loss loss;
    pt_item item;
    while (pt_loss_at(desk, 0, &loss) == PT_OK) {
        for (size_t i = 0; i < loss.items; i++) {
            assert(pt_loss_item(desk, 0, i, &item) == PT_OK);
            if (item.code == PT_ITEM_USER)
                meets(item.body.num, 'l');
        }
        assert(pt_next_loss(desk) == PT_OK);
    }
}

static void take_all(pt_desk *desk, pt_pid p, uint32_t most) {
    pt_item item;
    pt_pick any = {0};
    any.code = PT_PICK_ANY;
    for (uint32_t i = 0; i < most && pt_receive(desk, p, any, &item) == PT_OK; i++)
        meets(item.body.num, 't');
}

static void many(void) {
    pt_desk desks[2] = {PT_NO_DESK, PT_NO_DESK};
    pt_config config = {SENDERS + 8, UINT32_MAX, 16, 0};
    pt_pid senders[SENDERS], receiver;
    pt_turned turned;
    assert(pt_open(desks, 2, config) == PT_OK && pt_keep_losses(&desks[1], true) == PT_OK);
    for (int s = 0; s < SENDERS; s++)
        assert(pt_spawn(&desks[0], &senders[s]) == PT_OK);
    assert(pt_spawn(&desks[1], &receiver) == PT_OK);
    for (int m = 0; m < MESSAGES; m++) {
        for (int s = 0; s < SENDERS; s++)
            assert(pt_send(&desks[0], senders[s], receiver, numbered(m * SENDERS + s)) != PT_UNKNOWN
                || !"the receiver is known");
        assert(pt_turn(&desks[0], 16, &turned) == PT_OK && pt_turn(&desks[1], 64, &turned) == PT_OK);
        take_all(&desks[1], receiver, 20);
        if (m % 10 == 9) { /* it crashes, and another takes its place: what comes for the old one is too late */
            assert(pt_exit(&desks[1], receiver, (pt_reason){PT_OTHER, 1}) == PT_OK);
            assert(pt_spawn(&desks[1], &receiver) == PT_OK);
        }
        if (m % 3 == 0)
            tell_losses(&desks[1]);
        if (m == MESSAGES / 2) {
            pt_gathered node = PT_NO_GATHERED;
            pt_quiet quiet = PT_NO_QUIET;
            assert(pt_gather(desks, 2, &node) == PT_OK && pt_settle(&node, &quiet) == PT_OK);
            assert(pt_resume(&quiet, desks, 2) == PT_OK);
        }
    }
    pt_gathered node = PT_NO_GATHERED;
    pt_quiet quiet = PT_NO_QUIET;
    assert(pt_gather(desks, 2, &node) == PT_OK && pt_settle(&node, &quiet) == PT_OK);
    assert(pt_resume(&quiet, desks, 2) == PT_OK);
    take_all(&desks[1], receiver, UINT32_MAX);
    tell_losses(&desks[1]);
    int lost = 0, refused = 0;
    for (int n = 0; n < SENDERS * MESSAGES; n++) {
        lost += fate[n] == 'l';
        refused += fate[n] == 0; /* PT_NOPROC: it was never sent */
    }
    assert(lost > 0 && refused == 0);
    assert(pt_gather(desks, 2, &node) == PT_OK && pt_gathered_give_up(&node) == PT_OK);
}

/* A crew is told the reason of each exit, also of one by a signal, where the loss is noted before. */
static void reasons(void) {
    pt_desk desks[1] = {PT_NO_DESK}, *desk = &desks[0];
    pt_config config = {8, UINT32_MAX, 8, 0};
    pt_crew crew = PT_NO_CREW;
    pt_next first = {0};
    pt_pid killer, known, unknown;
    pt_job jobs[8];
    pt_turned turned;
    pt_loss loss;
    size_t count;
    first.code = PT_NEXT_WAIT;
    first.pick.code = PT_PICK_ANY;
    assert(pt_open(desks, 1, config) == PT_OK && pt_crew_open(&crew) == PT_OK && pt_spawn(desk, &killer) == PT_OK);
    assert(pt_crew_note_loss(&crew, desk, 0) == PT_NOTHING);
    assert(pt_crew_spawn(&crew, desk, 1, first, &known) == PT_OK);
    assert(pt_crew_spawn(&crew, desk, 2, first, &unknown) == PT_OK);
    assert(pt_keep_losses(desk, true) == PT_OK);
    assert(pt_exit_signal(desk, killer, known, (pt_reason){PT_OTHER, 7}) == PT_OK);
    assert(pt_exit_signal(desk, killer, unknown, (pt_reason){PT_OTHER, 8}) == PT_OK);
    assert(pt_turn(desk, 16, &turned) == PT_OK);
    assert(pt_loss_at(desk, 0, &loss) == PT_OK && is_pid(loss.pid, known));
    assert(pt_crew_note_loss(&crew, desk, 0) == PT_OK && pt_next_loss(desk) == PT_OK);
    assert(pt_crew_step(&crew, desk, 16, jobs, 8, &count, &turned) == PT_OK && count == 2);
    for (size_t i = 0; i < count; i++) {
        assert(jobs[i].code == PT_JOB_EXIT);
        if (jobs[i].tag == 1)
            assert(jobs[i].reason.code == PT_OTHER && jobs[i].reason.number == 7);
        else
            assert(jobs[i].reason.code == PT_NO_PROCESS);
    }
    assert(pt_crew_give_up(&crew) == PT_OK);
    pt_gathered node = PT_NO_GATHERED;
    assert(pt_gather(desks, 1, &node) == PT_OK && pt_gathered_give_up(&node) == PT_OK);
}

int main(void) {
    some();
    many();
    reasons();
    puts("losses: each message is taken, or told lost, once");
    return 0;
}
