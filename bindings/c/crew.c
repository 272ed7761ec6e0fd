/* Three processes with handlers in C. Ping and pong play; pong breaks down, a watcher hears of it, and ping has waited
 * long enough. The crew says which handler is to run, and with what; the handler answers what its process does next. */
#include <assert.h>
#include <stdio.h>

#include "pundewo.h"
#include "pundewo_text.h"

enum { BALL = 1, PATIENCE = 5 };

/* What a process has of its own. The crew knows it by its tag, the place in this array. */
typedef struct player player;
struct player {
    const char *name;
    pt_next (*handle)(player *me, pt_desk *desk, const pt_job *job, uint64_t now);
    pt_pid other;
    pt_ref watch;
};

static const pt_pick any = {.code = PT_PICK_ANY};

static pt_next wait(void) { return (pt_next){.code = PT_NEXT_WAIT, .pick = any}; }

static pt_next stop(uint32_t code, uint32_t number) {
    return (pt_next){.code = PT_NEXT_STOP, .reason = {code, number}};
}

static void throw_ball(pt_desk *desk, pt_pid from, pt_pid to, int64_t num) {
    uint32_t code = pt_send(desk, from, to, (pt_body){.kind = BALL, .num = num});
    assert(code == PT_OK || code == PT_NOPROC);
}

/* Ping serves, and gives up where no ball comes for a while. */
static pt_next ping(player *me, pt_desk *desk, const pt_job *job, uint64_t now) {
    if (job->code == PT_JOB_TIMEOUT) return stop(PT_NORMAL, 0);
    throw_ball(desk, job->pid, me->other, job->code == PT_JOB_ITEM ? job->item.body.num + 1 : 1);
    return (pt_next){.code = PT_NEXT_WAIT_UNTIL, .pick = any, .until = now + PATIENCE};
}

/* Pong throws back, and the fifth ball breaks it. */
static pt_next pong(player *me, pt_desk *desk, const pt_job *job, uint64_t now) {
    (void)me, (void)now;
    if (job->code != PT_JOB_ITEM) return wait();
    if (job->item.body.num == 5) return stop(PT_OTHER, 7);
    throw_ball(desk, job->pid, job->item.pid, job->item.body.num + 1);
    return wait();
}

/* The watcher monitors pong, waits for its DOWN alone, and goes. */
static pt_next watcher(player *me, pt_desk *desk, const pt_job *job, uint64_t now) {
    (void)now;
    if (job->code == PT_JOB_ITEM) return stop(PT_NORMAL, 0);
    assert(pt_monitor(desk, job->pid, me->other, &me->watch) == PT_OK);
    return (pt_next){.code = PT_NEXT_WAIT, .pick = {.code = PT_PICK_DOWN_OF, .reference = me->watch}};
}

static player players[] = {{.name = "ping", .handle = ping}, {.name = "pong", .handle = pong},
    {.name = "watcher", .handle = watcher}};

static void print(uint64_t now, const pt_job *job) {
    static const char *const told[] = {"starts", "proceeds", "gets ", "has waited long enough", "has exited: "};
    printf("%llu %s %s", (unsigned long long)now, players[job->tag].name, told[job->code]);
    if (job->code == PT_JOB_ITEM) pt_print_item(stdout, job->item);
    if (job->code == PT_JOB_EXIT) pt_print_reason(stdout, job->reason);
    puts("");
}

int main(void) {
    pt_desk desk = PT_NO_DESK;
    pt_crew crew = PT_NO_CREW;
    pt_pid pids[3];
    size_t alive = 3;
    assert(pt_open(&desk, 1, (pt_config){.slots = 8, .top_version = 100, .lane = 8}) == PT_OK);
    assert(pt_crew_open(&crew) == PT_OK);
    for (uint64_t tag = 3; tag-- > 0;) /* the watcher first, so that it watches before the first ball */
        assert(pt_crew_spawn(&crew, &desk, tag, (pt_next){.code = PT_NEXT_PROCEED}, &pids[tag]) == PT_OK);
    players[0].other = players[2].other = pids[1];
    for (uint64_t now = 0; alive != 0; now++) {
        pt_job jobs[16];
        pt_answer answers[16];
        pt_turned turned;
        size_t count, taken, told = 0;
        assert(pt_crew_set_time(&crew, now) == PT_OK);
        assert(pt_crew_step(&crew, &desk, 64, jobs, 16, &count, &turned) == PT_OK && turned.stopped == PT_OK);
        for (size_t k = 0; k < count; k++) {
            player *me = &players[jobs[k].tag];
            print(now, &jobs[k]);
            if (jobs[k].code != PT_JOB_EXIT)
                answers[told++] = (pt_answer){jobs[k].pid, me->handle(me, &desk, &jobs[k], now)};
        }
        assert(pt_crew_answer(&crew, answers, told, &taken) == PT_OK && taken == told);
        assert(pt_crew_len(&crew, &alive) == PT_OK);
    }
    assert(pt_crew_give_up(&crew) == PT_OK && pt_give_up(&desk) == PT_OK);
    return 0;
}
