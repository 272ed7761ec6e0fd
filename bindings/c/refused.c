/* A node goes on, and is refused memory at each piece that it takes, once for each. Nothing is lost: the same call made
 * again does the rest, and comes to what it comes to where nothing is refused. No memory is kept in the end. */
#include <assert.h>
#include <stdio.h>
#include <string.h>

#include "pundewo.h"
#include "refusing.h"

/* ---- a node that has something to tell: letters on their way, a process that is killed in settling, an exit that was not
 * told, and one that runs */

enum { DESKS = 2 };

typedef struct {
    pt_desk desks[DESKS];
    pt_crew crews[DESKS];
    pt_gathered gathered;
    pt_quiet settled;
    pt_history history;
    pt_pid runs, gone, killed, waits;
} node;

static const pt_next wait_any = {.code = PT_NEXT_WAIT, .pick = {.code = PT_PICK_ANY}};

static pt_pid spawned(node *n, int desk, uint64_t tag, pt_next first) {
    pt_pid pid;
    assert(pt_crew_spawn(&n->crews[desk], &n->desks[desk], tag, first, &pid) == PT_OK);
    return pid;
}

static void begin(node *n) {
    pt_job jobs[4];
    pt_turned turned;
    size_t count;
    memset(n, 0, sizeof *n);
    assert(pt_open(n->desks, DESKS, (pt_config){.slots = 8, .top_version = 9, .lane = 4}) == PT_OK);
    for (int d = 0; d < DESKS; d++) assert(pt_crew_open(&n->crews[d]) == PT_OK);
    assert(pt_keep_losses(&n->desks[1], true) == PT_OK);
    n->runs = spawned(n, 0, 1, (pt_next){.code = PT_NEXT_PROCEED});
    n->gone = spawned(n, 0, 2, wait_any);
    n->killed = spawned(n, 1, 3, wait_any);
    n->waits = spawned(n, 1, 4, wait_any);
    assert(pt_crew_step(&n->crews[0], &n->desks[0], 9, jobs, 4, &count, &turned) == PT_OK && count == 1);
    assert(pt_exit(&n->desks[0], n->gone, (pt_reason){PT_OTHER, 6}) == PT_OK);
    for (int k = 0; k < 20; k++)
        assert(pt_send(&n->desks[0], n->runs, n->waits, (pt_body){.kind = 1, .num = k}) == PT_OK);
    assert(pt_send(&n->desks[0], n->runs, n->killed, (pt_body){.kind = 1}) == PT_OK);
    assert(pt_exit_signal(&n->desks[0], n->runs, n->killed, (pt_reason){PT_KILL, 0}) == PT_OK);
}

static uint32_t go_on(node *n) {
    return pt_crews_go_on(n->crews, DESKS, n->desks, DESKS, &n->gathered, &n->settled, &n->history);
}

/* What the crews know is as it was before: so it is where the node has not gone on. */
static bool crews_are_as_before(node *n) {
    size_t lens[DESKS], queued[DESKS];
    pt_next next;
    for (int d = 0; d < DESKS; d++)
        assert(pt_crew_len(&n->crews[d], &lens[d]) == PT_OK && pt_crew_queued(&n->crews[d], &queued[d]) == PT_OK);
    assert(pt_crew_next(&n->crews[0], n->runs, &next) == PT_OK && next.code == PT_NEXT_RUNNING);
    return lens[0] == 2 && lens[1] == 2 && queued[0] == 0 && queued[1] == 2;
}

/* Where the node is: 0, in its desks; 1, gathered; 2, settled. Nowhere else is anything, and there is no history. */
static int stage_of(node *n) {
    bool in_desks = n->desks[0].at != NULL;
    assert((n->desks[1].at != NULL) == in_desks && n->history.at == NULL);
    assert(in_desks + (n->gathered.at != NULL) + (n->settled.at != NULL) == 1);
    return in_desks ? 0 : n->gathered.at != NULL ? 1 : 2;
}

/* All is told that was to be told, and the history has it. */
static void look(node *n) {
    pt_job jobs[4];
    pt_turned turned;
    size_t count, events, left;
    assert(n->gathered.at == NULL && n->settled.at == NULL);
    assert(pt_history_count(&n->history, &events) == PT_OK && events == 4 + 1 + 22 + 22);
    assert(pt_history_left_count(&n->history, &left) == PT_OK && left == 0);
    assert(pt_crew_step(&n->crews[0], &n->desks[0], 9, jobs, 4, &count, &turned) == PT_OK && count == 1);
    assert(jobs[0].code == PT_JOB_EXIT && jobs[0].tag == 2 && jobs[0].reason.number == 6);
    assert(pt_crew_note_loss(&n->crews[1], &n->desks[1], 0) == PT_OK && pt_next_loss(&n->desks[1]) == PT_OK);
    for (int64_t k = 0; k < 20; k++) {
        assert(pt_crew_step(&n->crews[1], &n->desks[1], 0, jobs, 4, &count, &turned) == PT_OK && count == (k == 0 ? 2 : 1));
        if (k == 0) assert(jobs[0].code == PT_JOB_EXIT && jobs[0].tag == 3 && jobs[0].reason.code == PT_KILLED);
        assert(jobs[count - 1].tag == 4 && jobs[count - 1].item.body.num == k);
        pt_answer answer = {n->waits, wait_any};
        assert(pt_crew_answer(&n->crews[1], &answer, 1, &count) == PT_OK);
    }
    assert(pt_crew_answer(&n->crews[0], &(pt_answer){n->runs, wait_any}, 1, &count) == PT_OK);
}

static void give_up(node *n) {
    for (int d = 0; d < DESKS; d++)
        assert(pt_crew_give_up(&n->crews[d]) == PT_OK && pt_give_up(&n->desks[d]) == PT_OK);
    assert(pt_history_give_up(&n->history) == PT_OK);
}

/* A settled node lists its pids on request and is resumed, and each piece of memory that these take is refused once. The node
 * is as it was then, with its list or without. */
static void list_and_resume(void) {
    long pieces = 0, lists = 0, resumptions = 0;
    size_t count;
    for (was_refused = true; was_refused; pieces++) {
        node n;
        long before = taken;
        begin(&n);
        assert(pt_gather(n.desks, DESKS, &n.gathered) == PT_OK && pt_settle_unlisted(&n.gathered, &n.settled) == PT_OK);
        was_refused = false;
        refuse_in = pieces;
        uint32_t code = pt_quiet_list(&n.settled);
        bool listed = code == PT_OK;
        if (listed) code = pt_resume(&n.settled, n.desks, DESKS);
        refuse_in = -1;
        assert(code == (was_refused ? PT_MEMORY : PT_OK));
        if (was_refused) {
            assert(n.settled.at != NULL && n.desks[0].at == NULL && n.desks[1].at == NULL);
            assert(pt_quiet_pid_count(&n.settled, &count) == (listed ? PT_OK : PT_UNLISTED));
            assert(pt_quiet_list(&n.settled) == PT_OK && pt_quiet_pid_count(&n.settled, &count) == PT_OK && count == 4);
            assert(pt_resume(&n.settled, n.desks, DESKS) == PT_OK);
            *(listed ? &resumptions : &lists) += 1;
        }
        assert(n.settled.at == NULL);
        for (int d = 0; d < DESKS; d++) assert(pt_crew_give_up(&n.crews[d]) == PT_OK && pt_give_up(&n.desks[d]) == PT_OK);
        assert(taken == before);
    }
    assert(lists > 0 && resumptions > 0);
    printf("c: memory was refused %ld times to a list of pids, and %ld times to a resumption\n", lists, resumptions);
}

int main(void) {
    static char buffer[BUFSIZ];
    int refused[3] = {0};
    long pieces = 0;
    setvbuf(stdout, buffer, _IOFBF, sizeof buffer);
    for (was_refused = true; was_refused; pieces++) {
        node n;
        long before = taken;
        begin(&n);
        was_refused = false;
        refuse_in = pieces;
        uint32_t code = go_on(&n);
        refuse_in = -1;
        assert((code == PT_MEMORY) == was_refused);
        if (was_refused) {
            refused[stage_of(&n)]++;
            assert(crews_are_as_before(&n) && go_on(&n) == PT_OK);
        }
        look(&n);
        give_up(&n);
        assert(taken == before);
    }
    assert(refused[0] > 0 && refused[1] > 0 && refused[2] > 0 && refused[0] + refused[1] + refused[2] == pieces - 1);
    printf("c: going on was refused memory %ld times: %d before the node was gathered, %d before it was settled, %d before it"
        " was resumed\n", pieces - 1, refused[0], refused[1], refused[2]);
    list_and_resume();
    return 0;
}
