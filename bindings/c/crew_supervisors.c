/* A bank whose handlers are in C, and whose supervisors are the library's. The bank starts a clerk and a branch; the branch
 * is a supervisor too, and starts a teller. A clerk that breaks down is started again. A teller may break down once: the
 * second time its branch gives up, and the bank starts both again. The bank goes on through a pause. Then it takes on a clerk
 * for the evening, sends it home and takes its place away, and closes. */
#include <assert.h>
#include <stdio.h>

#include "pundewo.h"
#include "pundewo_text.h"

enum { BANK, CLERK, BRANCH, TELLER, EVENING };
enum { ASK = 1, BREAK = 2 };

static const char *const names[] = {"bank", "clerk", "branch", "teller", "evening clerk"};
static const pt_next wait = {.code = PT_NEXT_WAIT, .pick = {.code = PT_PICK_ANY}};

/* The two children of the bank, and the one of the branch. */
static const pt_child_spec staff[] = {{.tag = CLERK}, {.tag = BRANCH}};
static const pt_child_spec tellers[] = {{.tag = TELLER, .shutdown = PT_SHUTDOWN_AFTER, .time = 5}};

typedef struct { pt_desk desk; pt_crew crew; pt_pid owner, bank; } world;

static void print(uint64_t now, const pt_job *job) {
    static const char *const told[] = {"starts", "proceeds", "gets ", "has waited long enough", "has exited: "};
    printf("%llu %s %s", (unsigned long long)now, names[job->tag], told[job->code]);
    if (job->has_supervisor) {
        fputs(job->again ? " again, under " : ", under ", stdout);
        pt_print_pid(stdout, job->supervisor);
    }
    if (job->code == PT_JOB_ITEM) pt_print_item(stdout, job->item);
    if (job->code == PT_JOB_EXIT) pt_print_reason(stdout, job->reason);
    puts("");
}

/* A branch is a supervisor, which exits with the bank; the others wait for what is asked, and may break down. */
static void handle(world *w, const pt_job *job) {
    const pt_supervisor_spec branch = {
        .strategy = PT_ONE_FOR_ALL, .has_parent = true, .parent = job->supervisor, .most = 1, .span = 10, .timed = true};
    pt_answer answer = {job->pid, wait};
    size_t taken;
    if (job->code == PT_JOB_EXIT) return;
    if (job->tag == BRANCH) {
        assert(pt_crew_supervise(&w->crew, job->pid, branch, tellers, 1) == PT_OK);
        return;
    }
    if (job->code == PT_JOB_ITEM && job->item.body.kind == BREAK)
        answer.next = (pt_next){.code = PT_NEXT_STOP, .reason = {PT_OTHER, 7}};
    assert(pt_crew_answer(&w->crew, &answer, 1, &taken) == PT_OK && taken == 1);
}

/* A turn, and then the crew hears with which reason a signal ended whom. */
static uint64_t turn(world *w) {
    pt_turned turned;
    assert(pt_turn(&w->desk, 64, &turned) == PT_OK && turned.stopped == PT_OK);
    while (pt_crew_note_loss(&w->crew, &w->desk, 0) == PT_OK) assert(pt_next_loss(&w->desk) == PT_OK);
    return turned.handled;
}

/* Steps until nobody has anything to do. */
static void run(world *w, uint64_t now) {
    pt_job jobs[8];
    pt_turned turned;
    size_t count;
    uint64_t letters, handled;
    bool is_idle;
    assert(pt_crew_set_time(&w->crew, now) == PT_OK);
    do {
        handled = turn(w);
        assert(pt_crew_step(&w->crew, &w->desk, 0, jobs, 8, &count, &turned) == PT_OK);
        for (size_t k = 0; k < count; k++) {
            print(now, &jobs[k]);
            handle(w, &jobs[k]);
        }
        assert(pt_crew_is_idle(&w->crew, &w->desk, &is_idle) == PT_OK && pt_pending(&w->desk, &letters) == PT_OK);
    } while (!is_idle || letters != 0 || handled != 0);
}

static pt_pid child(world *w, pt_pid supervisor, size_t place) {
    pt_child c;
    assert(pt_crew_child(&w->crew, supervisor, place, &c) == PT_OK && c.has_pid && c.wanted);
    return c.pid;
}

static void tell(world *w, pt_pid to, uint32_t kind) {
    assert(pt_send(&w->desk, w->owner, to, (pt_body){.kind = kind, .num = 1}) == PT_OK);
}

/* The node is gathered, settled and resumed, and the crew goes on with its history. */
static void pause(world *w) {
    pt_gathered gathered = PT_NO_GATHERED;
    pt_quiet settled = PT_NO_QUIET;
    pt_history history = PT_NO_HISTORY;
    assert(pt_gather(&w->desk, 1, &gathered) == PT_OK && pt_settle_unlisted(&gathered, &settled) == PT_OK);
    assert(pt_quiet_history(&settled, &history) == PT_OK && pt_resume(&settled, &w->desk, 1) == PT_OK);
    assert(pt_crew_go_on(&w->crew, &history) == PT_OK && pt_history_give_up(&history) == PT_OK);
}

/* One more child, as long as it is wanted: it ends by itself, starts again when it is asked for, is ended, and forgotten. */
static void evening(world *w) {
    pt_child_spec clerk = {.tag = EVENING, .restart = PT_TRANSIENT};
    pt_child_counts counts;
    pt_gave_up cause;
    size_t place;
    assert(pt_crew_start_child(&w->crew, w->bank, clerk, &place) == PT_OK && place == 2);
    assert(pt_crew_count_children(&w->crew, w->bank, &counts) == PT_OK);
    assert(counts.specs == 3 && counts.active == 2 && counts.restarting == 1);
    run(w, 5);
    assert(pt_crew_start_child(&w->crew, w->bank, clerk, &place) == PT_CHILD_RUNNING);
    assert(pt_exit(&w->desk, child(w, w->bank, 2), (pt_reason){PT_NORMAL, 0}) == PT_OK);
    run(w, 6);
    assert(pt_crew_restart_child(&w->crew, w->bank, EVENING) == PT_OK);
    run(w, 7);
    assert(pt_crew_delete_child(&w->crew, w->bank, EVENING, &place) == PT_CHILD_RUNNING);
    assert(pt_crew_terminate_child(&w->crew, w->bank, EVENING) == PT_OK);
    run(w, 8);
    assert(pt_crew_delete_child(&w->crew, w->bank, EVENING, &place) == PT_OK && place == 2);
    assert(pt_crew_count_children(&w->crew, w->bank, &counts) == PT_OK && counts.specs == 2 && counts.active == 2);
    assert(pt_crew_gave_up(&w->crew, w->bank, &cause) == PT_NOTHING);
}

int main(void) {
    world w = {PT_NO_DESK, PT_NO_CREW, {0}, {0}};
    pt_supervisor_spec bank = {.strategy = PT_ONE_FOR_ONE, .has_parent = true, .most = 3, .span = 100, .timed = true};
    size_t count;
    assert(pt_open(&w.desk, 1, (pt_config){.slots = 16, .top_version = 100, .lane = 8}) == PT_OK);
    assert(pt_keep_losses(&w.desk, true) == PT_OK && pt_crew_open(&w.crew) == PT_OK);
    assert(pt_spawn(&w.desk, &w.owner) == PT_OK);
    bank.parent = w.owner;
    assert(pt_crew_spawn_supervisor(&w.crew, &w.desk, BANK, bank, staff, 2, &w.bank) == PT_OK);
    run(&w, 0);
    tell(&w, child(&w, w.bank, 0), ASK);
    run(&w, 1);
    tell(&w, child(&w, w.bank, 0), BREAK);
    run(&w, 2);
    tell(&w, child(&w, child(&w, w.bank, 1), 0), BREAK);
    pause(&w);
    run(&w, 3);
    tell(&w, child(&w, child(&w, w.bank, 1), 0), BREAK);
    run(&w, 4);
    assert(pt_crew_children(&w.crew, w.bank, &count) == PT_OK && count == 2);
    evening(&w);
    assert(pt_exit_signal(&w.desk, w.owner, w.bank, (pt_reason){PT_SHUTDOWN, 0}) == PT_OK);
    run(&w, 9);
    assert(pt_crew_len(&w.crew, &count) == PT_OK && count == 0);
    assert(pt_crew_give_up(&w.crew) == PT_OK && pt_give_up(&w.desk) == PT_OK);
    return 0;
}
