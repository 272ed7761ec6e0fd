/* Crews under load: on three desks processes send each other messages, answer at once or steps later, break down, exit
 * while they run, and are killed; whoever has exited is replaced. Each message that came to a process that lives is told
 * once and in order, each exit once with its tag and its reason, and no process is in a batch twice. Every twenty
 * rounds the node goes on, whatever the crews are about to do, and its histories have each message once.
 *
 *   crew_load [MESSAGES] */
#include <assert.h>
#include <stdio.h>
#include <stdlib.h>

#include "pundewo.h"

/* One of the desks keeps its losses, so that its crew knows the reason of each exit. */
enum { DESKS = 3, EACH = 40, MOST = 4000, BATCH = 16, TELLING = 1, EPOCH = 20 };

typedef struct {
    pt_pid pid;
    uint8_t desk;
    bool has_left, is_running, has_own_reason, was_killed;
    uint64_t told_in; /* the number of the last batch that it was in */
} process;

static pt_desk desks[DESKS];
static pt_crew crews[DESKS];
static process all[MOST];
static size_t tags;
static uint32_t sent[MOST][MOST], got[MOST][MOST];
static uint64_t batches, exits, kills, lates, messages, epochs, said, came;

static uint64_t random_number(void) {
    static uint64_t x = 88172645463325252;
    x ^= x << 13, x ^= x >> 7, x ^= x << 17;
    return x;
}

static bool chance(uint64_t of) { return random_number() % of == 0; }

/* Some process, mostly one that has not left. */
static uint32_t somebody(void) {
    uint32_t tag = (uint32_t)(random_number() % tags);
    for (int k = 0; k < 20 && all[tag].has_left; k++) tag = (uint32_t)(random_number() % tags);
    return tag;
}

static const pt_next wait_any = {.code = PT_NEXT_WAIT, .pick = {.code = PT_PICK_ANY}};

static void start(uint8_t desk) {
    if (tags == MOST) return;
    process *p = &all[tags];
    p->desk = desk;
    pt_next first = chance(2) ? wait_any : (pt_next){.code = PT_NEXT_PROCEED};
    assert(pt_crew_spawn(&crews[desk], &desks[desk], tags, first, &p->pid) == PT_OK);
    tags++;
}

static void exits_by(process *p, uint32_t tag) {
    p->has_own_reason = true;
    assert(pt_exit(&desks[p->desk], p->pid, (pt_reason){PT_OTHER, tag}) == PT_OK);
}

static void send_some(uint32_t from, uint64_t limit) {
    for (uint64_t k = random_number() % 4; k > 0 && messages < limit; k--) {
        uint32_t to = somebody();
        pt_body body = {.kind = from, .num = (int64_t)sent[from][to] + 1};
        if (pt_send(&desks[all[from].desk], all[from].pid, all[to].pid, body) == PT_OK) sent[from][to]++, messages++;
    }
    if (messages < limit && chance(200)) {
        uint32_t to = somebody();
        uint32_t code = pt_exit_signal(&desks[all[from].desk], all[from].pid, all[to].pid, (pt_reason){PT_KILL, 0});
        assert(code == PT_OK);
        all[to].was_killed = true;
        kills++;
    }
}

/* What the process does next; none, where it has exited meanwhile, or answers later. */
static bool handle(const pt_job *job, uint64_t limit, pt_next *next) {
    uint32_t tag = (uint32_t)job->tag;
    process *p = &all[tag];
    *next = wait_any;
    if (job->code == PT_JOB_ITEM) {
        uint32_t from = job->item.body.kind;
        assert(job->item.code == PT_ITEM_USER && job->item.body.num == (int64_t)got[from][tag] + 1);
        got[from][tag]++;
    }
    send_some(tag, limit);
    if (messages < limit && chance(80)) {
        p->has_own_reason = true;
        *next = (pt_next){.code = PT_NEXT_STOP, .reason = {PT_OTHER, tag}};
    } else if (messages < limit && chance(80)) {
        exits_by(p, tag);
        return false;
    }
    lates += p->is_running = chance(5);
    return !p->is_running;
}

static void has_exited(const pt_job *job) {
    process *p = &all[job->tag];
    assert(!p->has_left && (p->has_own_reason || p->was_killed));
    if (job->reason.code == PT_OTHER) assert(p->has_own_reason && job->reason.number == job->tag);
    else assert(p->was_killed && job->reason.code == (p->desk == TELLING ? PT_KILLED : PT_NO_PROCESS));
    /* what it was to do: nothing yet, where nobody answered */
    assert(!p->is_running || job->was.code == PT_NEXT_RUNNING);
    p->has_left = true;
    p->is_running = false;
    exits++;
    start(p->desk);
}

static void answer(uint8_t desk, const pt_answer *answers, size_t count) {
    size_t taken;
    assert(pt_crew_answer(&crews[desk], answers, count, &taken) == PT_OK && taken == count);
}

/* Some of those that answer late do so now. */
static void answer_late(uint8_t desk) {
    for (size_t tag = 0; tag < tags; tag++) {
        process *p = &all[tag];
        if (p->desk != desk || !p->is_running || !chance(3)) continue;
        pt_answer answers[2] = {{p->pid, wait_any}, {p->pid, wait_any}};
        size_t taken = 7;
        p->is_running = false;
        /* the second is refused, since it is not running then */
        assert(pt_crew_answer(&crews[desk], answers, 2, &taken) == PT_NOT_RUNNING && taken == 1);
    }
}

/* A turn, and what the desk lost by it or as the node went on. The budget that is left for the step is 0. */
static uint32_t note_losses(uint32_t budget, uint64_t *handled) {
    pt_turned turned;
    assert(pt_turn(&desks[TELLING], budget, &turned) == PT_OK && turned.stopped == PT_OK);
    while (pt_crew_note_loss(&crews[TELLING], &desks[TELLING], 0) == PT_OK)
        assert(pt_next_loss(&desks[TELLING]) == PT_OK);
    *handled = turned.handled;
    return 0;
}

static size_t step(uint8_t desk, uint64_t limit) {
    pt_job jobs[BATCH];
    pt_answer answers[BATCH];
    pt_turned turned;
    size_t count, most = 1 + random_number() % BATCH, told = 0;
    uint64_t before = 0;
    uint32_t budget = 1 + (uint32_t)(random_number() % 20);
    if (desk == TELLING) budget = note_losses(budget, &before);
    assert(pt_crew_step(&crews[desk], &desks[desk], budget, jobs, most, &count, &turned) == PT_OK);
    assert(count <= most && turned.stopped == PT_OK);
    batches++;
    for (size_t k = 0; k < count; k++) {
        process *p = &all[jobs[k].tag];
        assert(p->told_in != batches && !p->has_left && (jobs[k].code == PT_JOB_EXIT || !p->is_running));
        assert(jobs[k].pid.slot == p->pid.slot && jobs[k].pid.version == p->pid.version);
        p->told_in = batches;
        if (jobs[k].code == PT_JOB_EXIT) has_exited(&jobs[k]);
        else {
            answers[told].pid = jobs[k].pid;
            told += handle(&jobs[k], limit, &answers[told].next);
        }
    }
    answer(desk, answers, told);
    answer_late(desk);
    return count + turned.handled + before;
}

/* Whether nothing is to be done on any desk. */
static bool is_still(void) {
    bool still = true;
    for (uint8_t d = 0; d < DESKS; d++) {
        bool idle;
        uint64_t pending;
        assert(pt_crew_is_idle(&crews[d], &desks[d], &idle) == PT_OK && pt_pending(&desks[d], &pending) == PT_OK);
        still = still && idle && pending == 0;
    }
    for (size_t tag = 0; tag < tags; tag++) still = still && !all[tag].is_running;
    return still;
}

/* Counts what a history has: as many messages were sent as came to some process, since none is on its way at its end. */
static void count_history(pt_history *history) {
    size_t events, left;
    pt_event event;
    assert(pt_history_count(history, &events) == PT_OK && pt_history_left_count(history, &left) == PT_OK && left == 0);
    for (size_t k = 0; k < events; k++) {
        assert(pt_history_at(history, k, &event) == PT_OK);
        if (event.signal.code != PT_SIGNAL_MESSAGE) continue;
        said += event.code == PT_EVENT_SAID;
        came += event.code == PT_EVENT_CAME;
    }
    assert(said == came && pt_history_give_up(history) == PT_OK);
}

/* The whole node goes on, and each desk has an empty journal. */
static void go_on(void) {
    pt_gathered gathered = PT_NO_GATHERED;
    pt_quiet settled = PT_NO_QUIET;
    pt_history history = PT_NO_HISTORY;
    assert(pt_crews_go_on(crews, DESKS, desks, DESKS, &gathered, &settled, &history) == PT_OK);
    assert(gathered.at == NULL && settled.at == NULL);
    for (uint8_t d = 0; d < DESKS; d++) {
        size_t events, queued, len;
        assert(pt_event_count(&desks[d], &events) == PT_OK && events == 0);
        assert(pt_crew_queued(&crews[d], &queued) == PT_OK && pt_crew_len(&crews[d], &len) == PT_OK && queued == len);
    }
    count_history(&history);
    epochs++;
}

static void run(uint64_t limit) {
    uint64_t rounds = 0;
    for (int quiet = 0; quiet < 3;) {
        size_t did = 0;
        for (uint8_t d = 0; d < DESKS; d++) did += step(d, limit);
        if (++rounds % EPOCH == 0) go_on();
        if (messages < limit && did == 0) {
            uint32_t tag = somebody();
            if (!all[tag].has_left && !all[tag].was_killed && !all[tag].has_own_reason) send_some(tag, limit);
        }
        quiet = messages >= limit && did == 0 && is_still() ? quiet + 1 : 0;
    }
}

/* Each message to a process that lives was told. */
static uint64_t all_told(void) {
    uint64_t live = 0;
    for (size_t to = 0; to < tags; to++) {
        bool alive;
        assert(pt_alive(&desks[all[to].desk], all[to].pid, &alive) == PT_OK && alive == !all[to].has_left);
        live += alive;
        for (size_t from = 0; from < tags && alive; from++) assert(got[from][to] == sent[from][to]);
    }
    return live;
}

int main(int argc, char **argv) {
    uint64_t limit = argc > 1 ? (uint64_t)atoll(argv[1]) : 100000;
    uint64_t live = 0;
    assert(pt_open(desks, DESKS, (pt_config){.slots = 4096, .top_version = 100, .lane = 8}) == PT_OK);
    for (uint8_t d = 0; d < DESKS; d++) {
        assert(pt_crew_open(&crews[d]) == PT_OK);
        for (int k = 0; k < EACH; k++) start(d);
    }
    assert(pt_keep_losses(&desks[TELLING], true) == PT_OK);
    run(limit);
    for (uint8_t d = 0; d < DESKS; d++) {
        size_t len;
        assert(pt_crew_len(&crews[d], &len) == PT_OK);
        live += len;
    }
    assert(live == all_told() && live + exits == tags);
    go_on();
    assert(said == messages && epochs > 1);
    for (uint8_t d = 0; d < DESKS; d++) assert(pt_crew_give_up(&crews[d]) == PT_OK && pt_give_up(&desks[d]) == PT_OK);
    printf("c: crews told of %llu messages in %llu batches and %llu epochs, and %llu exits; %llu were killed, %llu answers"
        " were late\n", (unsigned long long)messages, (unsigned long long)batches, (unsigned long long)epochs,
        (unsigned long long)exits, (unsigned long long)kills, (unsigned long long)lates);
    return 0;
}
