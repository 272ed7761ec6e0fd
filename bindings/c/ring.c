/* A ring of processes over four desks, a thread each: a token goes round, and a thread rests while its desk has nothing to do. Then the
 * desks are gathered and settled, and the first events of the history printed. The last thread to see the token stops all. */
#include <assert.h>
#include <pthread.h>
#include <stdatomic.h>
#include <stdbool.h>
#include <stdio.h>
#include <stdlib.h>

#include "pundewo.h"
#include "pundewo_text.h"

enum { DESKS = 4, TOKEN = 1, ROUNDS = 1000 };

struct member {
    pt_desk *desk;
    pt_pid self, next;
    /* whether its bell was rung since its thread heard it last */
    pthread_mutex_t lock;
    pthread_cond_t bell;
    bool rung;
};

static struct member members[DESKS];
static atomic_bool done;

/* Wakes the threads of these desks, a bit for each. */
static void ring(uint64_t desks) {
    for (int d = 0; d < DESKS; d++) {
        if (!(desks >> d & 1)) continue;
        pthread_mutex_lock(&members[d].lock);
        members[d].rung = true;
        pthread_cond_signal(&members[d].bell);
        pthread_mutex_unlock(&members[d].lock);
    }
}

/* Rests until the bell is rung. What another desk has posted since its thread looked for letters rings behind that. */
static void rest(struct member *member) {
    pthread_mutex_lock(&member->lock);
    while (!member->rung) pthread_cond_wait(&member->bell, &member->lock);
    member->rung = false;
    pthread_mutex_unlock(&member->lock);
}

/* Takes the tokens that wait, and hands each on, one less. */
static void serve(struct member *member) {
    pt_item item;
    while (pt_receive(member->desk, member->self, (pt_pick){.code = PT_PICK_KIND, .kind = TOKEN}, &item) == PT_OK) {
        if (item.body.num == 0) {
            atomic_store(&done, true);
            ring(UINT64_MAX);
        } else {
            pt_body body = {.kind = TOKEN, .num = item.body.num - 1};
            assert(pt_send(member->desk, member->self, member->next, body) == PT_OK);
        }
    }
}

static void *work(void *data) {
    struct member *member = data;
    size_t seen = 0;
    while (!atomic_load(&done)) {
        pt_turned turned;
        pt_pid woken;
        uint64_t out;
        bool has;
        assert(pt_letters_out(member->desk, &out) == PT_OK);
        assert(pt_turn(member->desk, 64, &turned) == PT_OK && turned.stopped == PT_OK);
        ring(out);
        /* whoever got an item is told by the journal */
        while (pt_next_woken(member->desk, &seen, &woken) == PT_OK)
            if (woken.slot == member->self.slot) serve(member);
        assert(pt_has_letters(member->desk, &has) == PT_OK);
        if (!has) rest(member);
    }
    return NULL;
}

int main(int argc, char **argv) {
    long rounds = argc > 1 ? atol(argv[1]) : ROUNDS;
    pt_desk desks[DESKS] = {PT_NO_DESK, PT_NO_DESK, PT_NO_DESK, PT_NO_DESK};
    pthread_t threads[DESKS];
    assert(pt_open(desks, DESKS, (pt_config){.slots = 8, .top_version = 10, .lane = 64, .start = 0}) == PT_OK);
    for (int d = 0; d < DESKS; d++) {
        members[d].desk = &desks[d];
        assert(pthread_mutex_init(&members[d].lock, NULL) == 0 && pthread_cond_init(&members[d].bell, NULL) == 0);
        assert(pt_spawn(&desks[d], &members[d].self) == PT_OK);
    }
    for (int d = 0; d < DESKS; d++) members[d].next = members[(d + 1) % DESKS].self;
    pt_body token = {.kind = TOKEN, .num = rounds * DESKS};
    assert(pt_send(&desks[0], members[0].self, members[1].self, token) == PT_OK);
    /* a thread's start and join hand a desk over */
    for (int d = 0; d < DESKS; d++) assert(pthread_create(&threads[d], NULL, work, &members[d]) == 0);
    for (int d = 0; d < DESKS; d++) assert(pthread_join(threads[d], NULL) == 0);

    pt_gathered node = PT_NO_GATHERED;
    pt_quiet quiet = PT_NO_QUIET;
    pt_history history = PT_NO_HISTORY;
    size_t events, left, pids;
    pt_event event;
    assert(pt_gather(desks, DESKS, &node) == PT_OK);
    for (int d = 0; d < DESKS; d++) assert(desks[d].at == NULL);
    assert(pt_settle(&node, &quiet) == PT_OK && node.at == NULL);
    assert(pt_quiet_history(&quiet, &history) == PT_OK);
    assert(pt_history_count(&history, &events) == PT_OK && pt_history_left_count(&history, &left) == PT_OK);
    assert(left == 0 && pt_quiet_pid_count(&quiet, &pids) == PT_OK && pids == DESKS);
    for (size_t k = 0; k < 8 && pt_history_at(&history, k, &event) == PT_OK; k++) {
        pt_print_event(stdout, event);
        puts("");
    }
    uint64_t arrived = 0;
    for (size_t k = 0; k < pids; k++) {
        pt_pid pid;
        pt_account account;
        assert(pt_quiet_pid_at(&quiet, k, &pid) == PT_OK && pt_quiet_account(&quiet, pid, &account) == PT_OK);
        arrived += account.arrived;
    }
    printf("%zu events, %llu tokens came\n", events, (unsigned long long)arrived);
    assert(arrived == (uint64_t)token.num + 1);
    assert(pt_history_give_up(&history) == PT_OK && pt_quiet_give_up(&quiet) == PT_OK);
    return 0;
}
