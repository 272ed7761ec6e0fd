/* A node goes on: a watcher and a worker; the node is brought to rest, its history printed and given up, and the same
 * processes go on with empty journals. So does a node of crews, in one call, and a supervisor starts its child again. */
#include <assert.h>
#include <stdio.h>

#include "pundewo.h"
#include "pundewo_text.h"

/* Gathers and settles the node, prints its history, and goes on from it. */
static void epoch(pt_desk *desks, size_t count) {
    pt_gathered node = PT_NO_GATHERED;
    pt_quiet settled = PT_NO_QUIET;
    pt_history history = PT_NO_HISTORY;
    pt_event event;
    uint8_t number;
    assert(pt_gather(desks, count, &node) == PT_OK && pt_settle_unlisted(&node, &settled) == PT_OK && node.at == NULL);
    assert(pt_quiet_desks(&settled, &number) == PT_OK && number == count);
    assert(pt_quiet_history(&settled, &history) == PT_OK);
    for (size_t k = 0; pt_history_at(&history, k, &event) == PT_OK; k++) {
        pt_print_event(stdout, event);
        puts("");
    }
    puts("--");
    assert(pt_history_give_up(&history) == PT_OK);
    /* a wrong number of handles is refused, and nothing is lost */
    assert(pt_resume(&settled, desks, count - 1) == PT_BAD_DESKS);
    assert(pt_resume(&settled, desks, count) == PT_OK && settled.at == NULL);
    assert(pt_resume(&settled, desks, count) == PT_EMPTY);
}

/* Settles the node, reads it without the list of its pids, and lists them. With the list or without, it may be resumed. */
static void last(pt_desk *desks, size_t count, pt_pid worker, size_t wanted) {
    pt_gathered node = PT_NO_GATHERED;
    pt_quiet quiet = PT_NO_QUIET;
    pt_account account;
    pt_pid pid = {9, 9, 9};
    uint64_t handled;
    size_t pids = 99;
    assert(pt_quiet_list(&quiet) == PT_EMPTY && pt_quiet_give_up(&quiet) == PT_EMPTY);
    assert(pt_quiet_pid_count(&quiet, &pids) == PT_EMPTY && pt_quiet_pid_at(&quiet, 0, &pid) == PT_EMPTY);
    assert(pt_gather(desks, count, &node) == PT_OK && pt_settle_unlisted(&node, &quiet) == PT_OK);
    assert(pt_quiet_handled(&quiet, &handled) == PT_OK && handled == 0);
    assert(pt_quiet_account(&quiet, worker, &account) == PT_OK && !account.has_ended);
    /* what needs the list is refused, at each place, and writes nothing */
    assert(pt_quiet_pid_count(&quiet, &pids) == PT_UNLISTED && pids == 99);
    assert(pt_quiet_pid_at(&quiet, 0, &pid) == PT_UNLISTED && pt_quiet_pid_at(&quiet, SIZE_MAX, &pid) == PT_UNLISTED);
    assert(pid.shard == 9 && pid.slot == 9 && pid.version == 9);
    for (int k = 0; k < 2; k++) {
        assert(pt_quiet_list(&quiet) == PT_OK && pt_quiet_pid_count(&quiet, &pids) == PT_OK && pids == wanted);
        assert(pt_quiet_pid_at(&quiet, 0, &pid) == PT_OK && pt_quiet_pid_at(&quiet, wanted, &pid) == PT_NOTHING);
    }
    assert(pt_quiet_account(&quiet, worker, &account) == PT_OK && !account.has_ended);
    assert(pt_resume(&quiet, desks, count) == PT_OK && quiet.at == NULL && pt_gather(desks, count, &node) == PT_OK);
    assert(pt_settle_unlisted(&node, &quiet) == PT_OK && pt_quiet_pid_count(&quiet, &pids) == PT_UNLISTED);
    assert(pt_quiet_give_up(&quiet) == PT_OK);
}

/* Steps the crew until it is idle, and prints its jobs. A process that starts is answered that it waits. */
static void run(pt_crew *crew, pt_desk *desk) {
    static const char *const told[] = {"starts", "proceeds", "gets an item", "has waited long enough", "has exited: "};
    pt_job jobs[4];
    pt_turned turned;
    size_t count, taken;
    bool is_idle;
    do {
        assert(pt_crew_step(crew, desk, 64, jobs, 4, &count, &turned) == PT_OK && turned.stopped == PT_OK);
        for (size_t k = 0; k < count; k++) {
            const pt_job *job = &jobs[k];
            const pt_answer answer = {job->pid, {.code = PT_NEXT_WAIT, .pick = {.code = PT_PICK_ANY}}};
            pt_print_pid(stdout, job->pid);
            printf(" %s", told[job->code]);
            if (job->code == PT_JOB_EXIT) pt_print_reason(stdout, job->reason);
            else assert(pt_crew_answer(crew, &answer, 1, &taken) == PT_OK);
            if (job->has_supervisor) {
                fputs(job->again ? " again, under " : ", under ", stdout);
                pt_print_pid(stdout, job->supervisor);
            }
            puts("");
        }
        assert(pt_crew_is_idle(crew, desk, &is_idle) == PT_OK);
    } while (!is_idle);
}

/* A node of two desks with a crew each goes on in one call. A child has crashed, and its crew was not told. */
static void crews(void) {
    pt_desk desks[2] = {PT_NO_DESK, PT_NO_DESK};
    pt_crew both[2] = {PT_NO_CREW, PT_NO_CREW};
    pt_gathered gathered = PT_NO_GATHERED;
    pt_quiet settled = PT_NO_QUIET;
    pt_history history = PT_NO_HISTORY;
    const pt_supervisor_spec spec = {.strategy = PT_ONE_FOR_ONE, .most = 3, .span = 100};
    const pt_child_spec kid = {.tag = 1};
    pt_pid bosses[2];
    pt_child child;
    size_t events;
    assert(pt_open(desks, 2, (pt_config){.slots = 4, .top_version = 100, .lane = 8, .start = 0}) == PT_OK);
    for (size_t k = 0; k < 2; k++) {
        assert(pt_crew_open(&both[k]) == PT_OK);
        assert(pt_crew_spawn_supervisor(&both[k], &desks[k], 0, spec, &kid, 1, &bosses[k]) == PT_OK);
        run(&both[k], &desks[k]);
    }
    assert(pt_crew_child(&both[1], bosses[1], 0, &child) == PT_OK && child.has_pid);
    assert(pt_exit(&desks[1], child.pid, (pt_reason){PT_OTHER, 7}) == PT_OK);
    assert(pt_crews_go_on(both, 2, desks, 2, &gathered, &settled, &history) == PT_OK);
    assert(gathered.at == NULL && settled.at == NULL && pt_history_give_up(&history) == PT_OK);
    puts("--");
    for (size_t k = 0; k < 2; k++) {
        assert(pt_event_count(&desks[k], &events) == PT_OK && events == 0);
        run(&both[k], &desks[k]);
        assert(pt_crew_child(&both[k], bosses[k], 0, &child) == PT_OK && child.has_pid && child.wanted);
        assert(pt_crew_give_up(&both[k]) == PT_OK && pt_give_up(&desks[k]) == PT_OK);
    }
}

int main(void) {
    pt_desk desks[2] = {PT_NO_DESK, PT_NO_DESK};
    pt_pid boss, worker;
    pt_ref watch;
    pt_turned turned;
    pt_item item;
    size_t events;
    assert(pt_open(desks, 2, (pt_config){.slots = 4, .top_version = 100, .lane = 8, .start = 0}) == PT_OK);
    assert(pt_spawn(&desks[0], &boss) == PT_OK && pt_spawn(&desks[1], &worker) == PT_OK);
    assert(pt_monitor(&desks[0], boss, worker, &watch) == PT_OK);
    epoch(desks, 2);
    assert(pt_event_count(&desks[0], &events) == PT_OK && events == 0);
    /* the monitor still stands, on both desks */
    size_t count;
    pt_ref monitor;
    pt_pid other;
    assert(pt_monitor_count(&desks[0], boss, &count) == PT_OK && count == 1);
    assert(pt_monitor_at(&desks[0], boss, 0, &monitor, &other) == PT_OK);
    assert(monitor.desk == watch.desk && monitor.number == watch.number && other.shard == 1 && other.slot == worker.slot);
    assert(pt_watcher_count(&desks[1], worker, &count) == PT_OK && count == 1);
    assert(pt_watcher_at(&desks[1], worker, 0, &monitor, &other) == PT_OK);
    assert(monitor.desk == watch.desk && monitor.number == watch.number && other.shard == 0 && other.slot == boss.slot);
    assert(pt_watcher_at(&desks[1], worker, 1, &monitor, &other) == PT_NOTHING);
    assert(pt_exit(&desks[1], worker, (pt_reason){PT_OTHER, 7}) == PT_OK);
    assert(pt_turn(&desks[1], 64, &turned) == PT_OK && pt_turn(&desks[0], 64, &turned) == PT_OK);
    assert(pt_receive(&desks[0], boss, (pt_pick){.code = PT_PICK_DOWN_OF, .reference = watch}, &item) == PT_OK);
    assert(item.reason.code == PT_OTHER && item.reason.number == 7);
    epoch(desks, 2);
    /* the dead stay dead: the slot is given out again under the next version */
    assert(pt_send(&desks[1], worker, boss, (pt_body){.kind = 1}) == PT_GONE);
    assert(pt_spawn(&desks[1], &worker) == PT_OK && worker.version == 2);
    epoch(desks, 2);
    last(desks, 2, worker, 3);
    crews();
    return 0;
}
