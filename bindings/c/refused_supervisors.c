/* Calls of a crew for its supervisors that are refused. A code that means nothing, in each field of each call that gets
 * one; a desk that is another's; a handle without a crew or a desk; a node that does not go on; and memory, at each piece
 * that is taken, once for each. The call says so, and nothing has changed: the same call made again, with what is right, is
 * done. No memory is kept in the end. */
#include <assert.h>
#include <stdio.h>
#include <string.h>

#include "pundewo.h"
#include "refusing.h"

static const uint32_t bad[] = {6, 7, 8, 255, 256, 65536, 0x80000000, UINT32_MAX};
static const pt_next first = {.code = PT_NEXT_PROCEED}, wait_any = {.code = PT_NEXT_WAIT, .pick = {.code = PT_PICK_ANY}};
static const pt_supervisor_spec spec = {.strategy = PT_ONE_FOR_ONE, .most = 3, .span = 100};
static const pt_child_spec kids[] = {{.tag = 8}, {.tag = 9, .restart = PT_TRANSIENT, .shutdown = PT_BRUTAL_KILL}};

/* What a crew and its desk tell of themselves. */
typedef struct {
    uint64_t clock, pending, tag;
    size_t events, len, queued, children;
    bool is_idle, was_refused;
    uint32_t next;
} state;

static state state_of(pt_crew *crew, pt_desk *desk, pt_pid p, pt_pid boss) {
    state s;
    pt_next next;
    memset(&s, 0, sizeof s);
    assert(pt_clock(desk, &s.clock) == PT_OK && pt_pending(desk, &s.pending) == PT_OK);
    assert(pt_event_count(desk, &s.events) == PT_OK && pt_crew_len(crew, &s.len) == PT_OK);
    assert(pt_crew_queued(crew, &s.queued) == PT_OK && pt_crew_is_idle(crew, desk, &s.is_idle) == PT_OK);
    assert(pt_crew_refused(crew, &s.was_refused) == PT_OK && pt_crew_tag(crew, p, &s.tag) == PT_OK);
    assert(pt_crew_next(crew, p, &next) == PT_OK && pt_crew_children(crew, boss, &s.children) == PT_OK);
    s.next = next.code;
    return s;
}

static bool is_same(state a, state b) { return memcmp(&a, &b, sizeof a) == 0; }

/* A crew of one process that is running, and of a supervisor that has not run. */
static void begin(pt_crew *crew, pt_desk *desk, pt_pid *p, pt_pid *boss) {
    pt_job jobs[2];
    pt_turned turned;
    size_t count;
    assert(pt_open(desk, 1, (pt_config){.slots = 8, .top_version = 9, .lane = 8}) == PT_OK);
    assert(pt_crew_open(crew) == PT_OK && pt_crew_spawn(crew, desk, 7, first, p) == PT_OK);
    assert(pt_crew_step(crew, desk, 9, jobs, 2, &count, &turned) == PT_OK && count == 1);
    assert(jobs[0].code == PT_JOB_START && jobs[0].tag == 7 && !jobs[0].has_supervisor && !jobs[0].again);
    assert(pt_crew_spawn_supervisor(crew, desk, 5, spec, kids, 2, boss) == PT_OK);
}

/* A code that means nothing: before PT_NOT_RUNNING and all else, and behind PT_EMPTY. */
static int bad_codes(void) {
    pt_desk desk = PT_NO_DESK, none = PT_NO_DESK;
    pt_crew crew = PT_NO_CREW, nobody = PT_NO_CREW;
    pt_pid p, boss, out, was;
    size_t taken;
    int tried = 0;
    begin(&crew, &desk, &p, &boss);
    const state before = state_of(&crew, &desk, p, boss);
    memset(&out, 0xA5, sizeof out);
    memcpy(&was, &out, sizeof out);
    for (size_t k = 0; k < sizeof bad / sizeof *bad; k++) {
        const pt_supervisor_spec strange = {.strategy = bad[k], .most = 1, .span = 1};
        const pt_child_spec others[2][2] = {{kids[0], {.tag = 1, .restart = bad[k]}}, {{.tag = 1, .shutdown = bad[k]}, kids[1]}};
        assert(pt_crew_spawn_supervisor(&crew, &desk, 5, strange, kids, 2, &out) == PT_BAD_CODE);
        assert(pt_crew_supervise(&crew, p, strange, kids, 2) == PT_BAD_CODE), tried++;
        for (int n = 0; n < 2; n++, tried++) {
            assert(pt_crew_spawn_supervisor(&crew, &desk, 5, spec, others[n], 2, &out) == PT_BAD_CODE);
            assert(pt_crew_supervise(&crew, p, spec, others[n], 2) == PT_BAD_CODE);
            assert(pt_crew_supervise(&crew, (pt_pid){0, 6, 1}, spec, others[n], 2) == PT_BAD_CODE);
            assert(pt_crew_spawn_supervisor(&crew, &none, 5, spec, others[n], 2, &out) == PT_EMPTY);
            assert(pt_crew_spawn_supervisor(&nobody, &desk, 5, spec, others[n], 2, &out) == PT_EMPTY);
            assert(pt_crew_supervise(&nobody, p, spec, others[n], 2) == PT_EMPTY);
        }
        assert(is_same(before, state_of(&crew, &desk, p, boss)) && !memcmp(&was, &out, sizeof out));
    }
    /* a process that is not running, or is none of the crew, becomes no supervisor */
    assert(pt_crew_supervise(&crew, boss, spec, kids, 2) == PT_NOT_RUNNING);
    assert(pt_crew_supervise(&crew, (pt_pid){0, 6, 1}, spec, kids, 2) == PT_NOT_RUNNING);
    assert(pt_crew_answer(&crew, &(pt_answer){boss, first}, 1, &taken) == PT_NOT_RUNNING && taken == 0);
    assert(is_same(before, state_of(&crew, &desk, p, boss)));
    /* what there is nothing of */
    pt_child child;
    assert(pt_crew_children(&crew, p, &taken) == PT_NOTHING && pt_crew_child(&crew, boss, 2, &child) == PT_NOTHING);
    assert(pt_crew_child(&crew, p, 0, &child) == PT_NOTHING);
    assert(pt_crew_supervise(&crew, p, spec, NULL, 0) == PT_OK && pt_crew_children(&crew, p, &taken) == PT_OK && taken == 0);
    assert(pt_crew_give_up(&crew) == PT_OK && pt_give_up(&desk) == PT_OK);
    return tried;
}

/* The codes of the calls about the child with this tag of a process. */
static void ask(pt_crew *crew, pt_pid p, uint64_t tag, size_t *place, uint32_t codes[4]) {
    codes[0] = pt_crew_start_child(crew, p, (pt_child_spec){.tag = tag}, place);
    codes[1] = pt_crew_terminate_child(crew, p, tag);
    codes[2] = pt_crew_restart_child(crew, p, tag);
    codes[3] = pt_crew_delete_child(crew, p, tag, place);
}

/* A call about a child of a process that is no supervisor, of one that the supervisor does not have, or that it has in
 * another state, or with a code that means nothing: nothing is written, and nothing has changed. */
static int children(void) {
    pt_desk desk = PT_NO_DESK;
    pt_crew crew = PT_NO_CREW;
    pt_pid p, boss, strangers[2] = {{0}, {0, 6, 1}};
    pt_job jobs[4];
    pt_turned turned;
    uint32_t codes[4];
    size_t place = 99, count;
    int tried = 0;
    begin(&crew, &desk, &p, &boss);
    strangers[0] = p;
    /* the children are to start, and then they run */
    for (int runs = 0; runs < 2; runs++) {
        const state before = state_of(&crew, &desk, p, boss);
        pt_child_counts counts, unwritten;
        pt_gave_up cause, unsaid;
        memset(&counts, 0xA5, sizeof counts), memset(&cause, 0xA5, sizeof cause);
        memcpy(&unwritten, &counts, sizeof counts), memcpy(&unsaid, &cause, sizeof cause);
        for (int n = 0; n < 2; n++, tried += 6) {
            ask(&crew, strangers[n], 8, &place, codes);
            for (int k = 0; k < 4; k++) assert(codes[k] == PT_NOTHING);
            assert(pt_crew_count_children(&crew, strangers[n], &counts) == PT_NOTHING);
            assert(pt_crew_gave_up(&crew, strangers[n], &cause) == PT_NOTHING);
        }
        assert(pt_crew_gave_up(&crew, boss, &cause) == PT_NOTHING && !memcmp(&cause, &unsaid, sizeof cause));
        assert(!memcmp(&counts, &unwritten, sizeof counts));
        assert(pt_crew_terminate_child(&crew, boss, 7) == PT_NOTHING && pt_crew_restart_child(&crew, boss, 7) == PT_NOTHING);
        assert(pt_crew_delete_child(&crew, boss, 7, &place) == PT_NOTHING), tried += 4;
        const uint32_t present = runs ? PT_CHILD_RUNNING : PT_CHILD_PRESENT, is = runs ? PT_CHILD_RUNNING : PT_CHILD_RESTARTING;
        assert(pt_crew_start_child(&crew, boss, kids[1], &place) == present && pt_crew_restart_child(&crew, boss, 9) == is);
        assert(pt_crew_delete_child(&crew, boss, 9, &place) == is), tried += 3;
        for (size_t k = 0; k < sizeof bad / sizeof *bad; k++, tried += 2) {
            const pt_child_spec others[2] = {{.tag = 1, .restart = bad[k]}, {.tag = 1, .shutdown = bad[k]}};
            assert(pt_crew_start_child(&crew, boss, others[0], &place) == PT_BAD_CODE);
            assert(pt_crew_start_child(&crew, p, others[1], &place) == PT_BAD_CODE);
        }
        assert(place == 99 && is_same(before, state_of(&crew, &desk, p, boss)));
        for (int k = 0; k < 2; k++)
            assert(pt_crew_step(&crew, &desk, 9, jobs, 4, &count, &turned) == PT_OK && count == (k && !runs ? 2 : 0));
    }
    /* the same calls are done once all is right */
    assert(pt_crew_start_child(&crew, boss, (pt_child_spec){.tag = 7}, &place) == PT_OK && place == 2);
    assert(pt_crew_terminate_child(&crew, boss, 7) == PT_OK && pt_crew_restart_child(&crew, boss, 7) == PT_OK);
    assert(pt_crew_restart_child(&crew, boss, 7) == PT_CHILD_RESTARTING && pt_crew_terminate_child(&crew, boss, 7) == PT_OK);
    assert(pt_crew_delete_child(&crew, boss, 7, &place) == PT_OK && place == 2);
    assert(pt_crew_give_up(&crew) == PT_OK && pt_give_up(&desk) == PT_OK);
    return tried;
}

/* Each call that has no crew, or no desk: it says so, and writes nothing. */
static int empty(void) {
    pt_desk desk = PT_NO_DESK, none = PT_NO_DESK;
    pt_crew crew = PT_NO_CREW, nobody = PT_NO_CREW;
    pt_history history = PT_NO_HISTORY;
    pt_pid p, boss;
    struct { pt_pid pid; size_t count; pt_child child; pt_child_counts counts; pt_gave_up cause; } out, was;
    begin(&crew, &desk, &p, &boss);
    const state before = state_of(&crew, &desk, p, boss);
    memset(&out, 0xA5, sizeof out);
    memcpy(&was, &out, sizeof out);
    const uint32_t codes[] = {
        pt_crew_spawn_supervisor(&nobody, &desk, 5, spec, kids, 2, &out.pid),
        pt_crew_spawn_supervisor(&crew, &none, 5, spec, kids, 2, &out.pid), pt_crew_supervise(&nobody, p, spec, kids, 2),
        pt_crew_children(&nobody, boss, &out.count), pt_crew_child(&nobody, boss, 0, &out.child),
        pt_crew_go_on(&nobody, &history), pt_crew_go_on(&crew, &history),
        pt_crew_start_child(&nobody, boss, kids[0], &out.count), pt_crew_terminate_child(&nobody, boss, 8),
        pt_crew_start_child(&nobody, boss, (pt_child_spec){.restart = bad[0]}, &out.count),
        pt_crew_restart_child(&nobody, boss, 8), pt_crew_delete_child(&nobody, boss, 8, &out.count),
        pt_crew_count_children(&nobody, boss, &out.counts), pt_crew_gave_up(&nobody, boss, &out.cause),
    };
    const int tried = sizeof codes / sizeof *codes;
    for (int k = 0; k < tried; k++) assert(codes[k] == PT_EMPTY);
    assert(!memcmp(&was, &out, sizeof out) && none.at == NULL && nobody.at == NULL && history.at == NULL);
    assert(is_same(before, state_of(&crew, &desk, p, boss)));
    assert(pt_crew_give_up(&crew) == PT_OK && pt_give_up(&desk) == PT_OK);
    return tried;
}

/* A supervisor makes a crew that of its desk, and is spawned on no other: nothing is written, and nothing has changed. */
static int wrong_desk(void) {
    pt_desk desks[2] = {PT_NO_DESK, PT_NO_DESK};
    pt_crew crew = PT_NO_CREW;
    pt_pid boss, out, was;
    bool is_idle;
    assert(pt_open(desks, 2, (pt_config){.slots = 8, .top_version = 9, .lane = 8}) == PT_OK && pt_crew_open(&crew) == PT_OK);
    assert(pt_crew_spawn_supervisor(&crew, &desks[1], 5, spec, kids, 2, &boss) == PT_OK);
    const state before = state_of(&crew, &desks[1], boss, boss);
    memset(&out, 0xA5, sizeof out);
    memcpy(&was, &out, sizeof out);
    const pt_supervisor_spec strange = {.strategy = bad[0]};
    assert(pt_crew_spawn_supervisor(&crew, &desks[0], 5, spec, kids, 2, &out) == PT_WRONG_DESK);
    assert(pt_crew_is_idle(&crew, &desks[0], &is_idle) == PT_WRONG_DESK);
    assert(pt_crew_spawn_supervisor(&crew, &desks[0], 5, strange, kids, 2, &out) == PT_BAD_CODE);
    assert(!memcmp(&was, &out, sizeof out) && is_same(before, state_of(&crew, &desks[1], boss, boss)));
    assert(pt_crew_give_up(&crew) == PT_OK && pt_give_up(&desks[0]) == PT_OK && pt_give_up(&desks[1]) == PT_OK);
    return 2;
}

/* A node and its crews go on, each refusal in its order: nothing has changed, and the same call goes on once all is right. */
static int going_on(void) {
    pt_desk desks[2] = {PT_NO_DESK, PT_NO_DESK};
    pt_crew crews[2] = {PT_NO_CREW, PT_NO_CREW};
    pt_gathered gathered = PT_NO_GATHERED;
    pt_quiet settled = PT_NO_QUIET;
    pt_history history = PT_NO_HISTORY, told = PT_NO_HISTORY;
    pt_pid p[2], boss[2];
    state before[2];
    int tried = 0;
    assert(pt_open(desks, 2, (pt_config){.slots = 8, .top_version = 9, .lane = 8}) == PT_OK);
    for (int k = 0; k < 2; k++) {
        assert(pt_crew_open(&crews[k]) == PT_OK && pt_crew_spawn(&crews[k], &desks[k], 7, first, &p[k]) == PT_OK);
        assert(pt_crew_spawn_supervisor(&crews[k], &desks[k], 5, spec, kids, 2, &boss[k]) == PT_OK);
        before[k] = state_of(&crews[k], &desks[k], p[k], boss[k]);
    }
#define REFUSED(crew_count, desk_count, history, code)                                                               \
    assert(pt_crews_go_on(crews, crew_count, desks, desk_count, &gathered, &settled, history) == code), tried++
    /* a history that is there: that of a node without events */
    pt_desk other = PT_NO_DESK;
    assert(pt_open(&other, 1, (pt_config){.slots = 8, .top_version = 9, .lane = 8}) == PT_OK);
    assert(pt_gather(&other, 1, &gathered) == PT_OK && pt_settle_unlisted(&gathered, &settled) == PT_OK);
    assert(pt_quiet_history(&settled, &told) == PT_OK && pt_quiet_give_up(&settled) == PT_OK);
    pt_crew second = crews[1];
    crews[1] = (pt_crew)PT_NO_CREW;
    REFUSED(2, 1, &told, PT_EMPTY);
    crews[1] = crews[0], crews[0] = second;
    REFUSED(2, 1, &told, PT_BAD_DESKS);
    REFUSED(1, 2, &told, PT_BAD_DESKS);
    REFUSED(2, 2, &told, PT_FILLED);
    REFUSED(2, 2, &history, PT_WRONG_DESK);
    second = crews[0], crews[0] = crews[1], crews[1] = second;
    REFUSED(1, 1, &history, PT_BAD_DESKS);
    for (int k = 0; k < 2; k++) assert(is_same(before[k], state_of(&crews[k], &desks[k], p[k], boss[k])));
    /* a node that the caller has gathered goes on, once the history is given up */
    assert(pt_gather(desks, 2, &gathered) == PT_OK);
    REFUSED(2, 2, &told, PT_FILLED);
    assert(pt_history_give_up(&told) == PT_OK && gathered.at != NULL);
    assert(pt_crews_go_on(crews, 2, desks, 2, &gathered, &settled, &history) == PT_OK);
    assert(gathered.at == NULL && settled.at == NULL && pt_history_give_up(&history) == PT_OK);
    for (int k = 0; k < 2; k++) {
        assert(pt_crew_tag(&crews[k], p[k], &before[k].tag) == PT_OK && before[k].tag == 7);
        assert(pt_crew_give_up(&crews[k]) == PT_OK && pt_give_up(&desks[k]) == PT_OK);
    }
    return tried;
}

/* A call that may be refused memory: if it is, nothing has changed, and it is made again. */
#define AGAIN(call)                                                                                                  \
    do {                                                                                                             \
        uint32_t code = call;                                                                                        \
        assert(code == PT_OK || (code == PT_MEMORY && (call) == PT_OK));                                             \
    } while (0)

/* Two children start, one breaks down, the node goes on, and both wait in the end. */
static void play(pt_crew *crew, pt_desk *desk) {
    pt_pid boss, runs;
    pt_job jobs[4];
    pt_turned turned;
    pt_child child;
    size_t count, taken, starts = 0, again = 0;
    bool is_idle = false, broke = false;
    pt_gathered gathered = PT_NO_GATHERED;
    pt_quiet settled = PT_NO_QUIET;
    pt_history history = PT_NO_HISTORY;
    const pt_child_spec more = {.tag = 10};
    AGAIN(pt_crew_open(crew));
    AGAIN(pt_crew_spawn_supervisor(crew, desk, 5, spec, kids, 2, &boss));
    AGAIN(pt_crew_spawn(crew, desk, 7, first, &runs));
    AGAIN(pt_crew_start_child(crew, boss, more, &taken));
    while (!is_idle || again == 0) {
        assert(pt_crew_step(crew, desk, 64, jobs, 4, &count, &turned) == PT_OK);
        for (size_t k = 0; k < count; k++) {
            pt_job *job = &jobs[k];
            if (job->code == PT_JOB_EXIT) continue;
            if (job->tag == 7) {
                AGAIN(pt_crew_supervise(crew, job->pid, spec, kids + 1, 1));
                continue;
            }
            starts += job->code == PT_JOB_START && job->has_supervisor;
            again += job->again;
            assert(pt_crew_answer(crew, &(pt_answer){job->pid, wait_any}, 1, &taken) == PT_OK);
        }
        assert(pt_crew_is_idle(crew, desk, &is_idle) == PT_OK);
        if (is_idle && !broke) {
            assert(pt_crew_child(crew, boss, 0, &child) == PT_OK && child.has_pid);
            AGAIN(pt_exit(desk, child.pid, (pt_reason){PT_OTHER, 1}));
            AGAIN(pt_crews_go_on(crew, 1, desk, 1, &gathered, &settled, &history));
            assert(pt_history_give_up(&history) == PT_OK);
            broke = true;
        }
    }
    assert(starts == 5 && again == 1 && pt_crew_len(crew, &count) == PT_OK && count == 6);
}

int main(void) {
    static char buffer[BUFSIZ];
    long pieces = 0;
    setvbuf(stdout, buffer, _IOFBF, sizeof buffer);
    int codes = bad_codes(), without = empty(), wrong = wrong_desk(), nodes = going_on(), asked = children();
    printf("c: %d bad codes of supervisors, %d calls without a handle, %d over the desk of another, %d nodes that do not go "
        "on, %d calls about children, each refused\n", codes, without, wrong, nodes, asked);
    for (was_refused = true; was_refused; pieces++) {
        pt_desk desk = PT_NO_DESK;
        pt_crew crew = PT_NO_CREW;
        long before = taken;
        assert(pt_open(&desk, 1, (pt_config){.slots = 8, .top_version = 9, .lane = 8}) == PT_OK);
        was_refused = false;
        refuse_in = pieces;
        play(&crew, &desk);
        refuse_in = -1;
        assert(pt_crew_give_up(&crew) == PT_OK && pt_give_up(&desk) == PT_OK && taken == before);
    }
    printf("c: a crew with supervisors was refused memory %ld times, and nothing was lost\n", pieces - 1);
    return pieces < 10;
}
