/* Calls that are answered, over two desks whose threads sleep while there is nothing to do, and a door by which a thread
 * without a desk asks. */
#include <assert.h>
#include <pthread.h>
#include <stdio.h>
#include <string.h>

#include "pundewo.h"
#include "pundewo_text.h"

enum { DOUBLE = 1, NEVER = 2, EXIT = 3, ASKS = 4, MANY = 1000 };

static const pt_pick any = {.code = PT_PICK_ANY};
static const pt_config settings = {.slots = 8, .top_version = 100, .lane = 8};

/* ---- one desk */

static pt_item receive(pt_desk *desk, pt_pid p) {
    pt_item item;
    pt_turned turned;
    assert(pt_turn(desk, 64, &turned) == PT_OK && pt_receive(desk, p, any, &item) == PT_OK);
    return item;
}

/* On empty handles, and with codes that mean nothing, each call says so, and leaves what it would write. */
static void refused(void) {
    pt_desk none = PT_NO_DESK, desk = PT_NO_DESK;
    pt_pid p, q = {1, 0, 1};
    pt_call call, was;
    pt_heard heard = {7, 7, {7, 7}};
    pt_request request = {{7, 7, 7}, 7, 7};
    pt_item item = {.code = PT_ITEM_USER}, bad = {.code = 9}, bad_reason = {.code = PT_ITEM_DOWN, .reason = {6, 0}};
    bool has = true;
    uint64_t desks = 7;
    uint8_t from = 7;
    memset(&call, 0, sizeof call);
    memset(&was, 0, sizeof was);
    assert(pt_ask(&none, q, q, 1, &call) == PT_EMPTY && pt_ask_until(&none, q, q, 1, 2, &call) == PT_EMPTY);
    assert(pt_hear(&none, &call, bad, &heard) == PT_EMPTY && pt_expire(&none, &call, 1, &has) == PT_EMPTY && has);
    assert(pt_reply(&none, q, request, 1) == PT_EMPTY && pt_letters_out(&none, &desks) == PT_EMPTY && desks == 7);
    assert(pt_has_letters(&none, &has) == PT_EMPTY && has);
    assert(pt_look_from(&none, 0) == PT_EMPTY && pt_next_from(&none, &from) == PT_EMPTY && from == 7);
    assert(pt_open(&desk, 1, settings) == PT_OK && pt_spawn(&desk, &p) == PT_OK);
    assert(pt_ask(&desk, p, q, 1, &call) == PT_UNKNOWN && pt_ask(&desk, p, p, 1, &call) == PT_MYSELF);
    assert(pt_ask_until(&desk, (pt_pid){0, 5, 1}, p, 1, 2, &call) == PT_GONE && memcmp(&call, &was, sizeof call) == 0);
    assert(pt_hear(&desk, &call, bad, &heard) == PT_BAD_CODE && pt_hear(&desk, &call, bad_reason, &heard) == PT_BAD_CODE);
    assert(heard.code == 7 && heard.answer == 7 && heard.reason.code == 7 && memcmp(&call, &was, sizeof call) == 0);
    assert(pt_request_of(bad, &request) == PT_BAD_CODE && pt_request_of(item, &request) == PT_NOTHING);
    assert(pt_is_call(p, bad, &has) == PT_BAD_CODE && pt_is_call(p, bad_reason, &has) == PT_BAD_CODE && has);
    assert(request.asks == 7 && request.number == 7 && pt_reply(&desk, p, request, 1) == PT_UNKNOWN);
    assert(pt_give_up(&desk) == PT_OK);
}

static void print(const char *what, pt_heard heard) {
    static const char *const names[] = {"the answer", "the exit of the server", "late", "not of this call"};
    printf("%s: %s", what, names[heard.code]);
    if (heard.code == PT_HEARD_ANSWER) printf(" %u", heard.answer);
    if (heard.code == PT_HEARD_SERVER_DOWN) {
        printf(" ");
        pt_print_reason(stdout, heard.reason);
    }
    puts("");
}

/* A call ends once: by its answer, by the exit of its server, or by its deadline. */
static void ends(void) {
    pt_desk desk = PT_NO_DESK;
    pt_pid client, server;
    pt_call first, second, third;
    pt_request request;
    pt_heard heard;
    pt_item item, answer;
    pt_turned turned;
    bool is;
    assert(pt_open(&desk, 1, settings) == PT_OK && pt_spawn(&desk, &client) == PT_OK && pt_spawn(&desk, &server) == PT_OK);
    assert(pt_ask(&desk, client, server, DOUBLE, &first) == PT_OK && first.waits && !first.has_deadline);
    assert(pt_ask_until(&desk, client, server, NEVER, 5, &second) == PT_OK && second.has_deadline && second.deadline == 5);
    assert(pt_request_of(receive(&desk, server), &request) == PT_OK && request.asks == DOUBLE);
    assert(request.number == (int64_t)first.monitor.number && pt_reply(&desk, server, request, 42) == PT_OK);
    answer = receive(&desk, client);
    assert(pt_hear(&desk, &second, answer, &heard) == PT_OK && heard.code == PT_HEARD_NOT_MINE && second.waits);
    assert(pt_hear(&desk, &first, answer, &heard) == PT_OK && !first.waits);
    print("first", heard);
    assert(pt_hear(&desk, &first, answer, &heard) == PT_OK);
    print("first", heard);
    assert(pt_expire(&desk, &first, UINT64_MAX, &is) == PT_OK && !is); /* it has ended, and had no deadline */
    assert(pt_expire(&desk, &second, 4, &is) == PT_OK && !is && second.waits);
    assert(pt_expire(&desk, &second, 5, &is) == PT_OK && is && !second.waits);
    printf("second: its deadline\n");
    assert(pt_expire(&desk, &second, 5, &is) == PT_OK && !is);
    assert(pt_request_of(receive(&desk, server), &request) == PT_OK && request.asks == NEVER);
    assert(pt_reply(&desk, server, request, 1) == PT_OK);
    assert(pt_hear(&desk, &second, receive(&desk, client), &heard) == PT_OK);
    print("second", heard);
    assert(pt_ask(&desk, client, server, EXIT, &third) == PT_OK);
    assert(pt_turn(&desk, 64, &turned) == PT_OK && pt_exit(&desk, server, (pt_reason){PT_OTHER, 7}) == PT_OK);
    item = receive(&desk, client);
    assert(pt_hear(&desk, &third, item, &heard) == PT_OK && !third.waits);
    print("third", heard);
    assert(pt_ask(&desk, client, server, EXIT, &third) == PT_NOPROC && pt_give_up(&desk) == PT_OK);
}

static bool is_call(pt_pid me, pt_item item) {
    bool is;
    assert(pt_is_call(me, item, &is) == PT_OK);
    return is;
}

/* A request and an answer are told from messages whose kinds are the same numbers, also if nobody keeps the call. */
static void kinds(void) {
    enum { KIND = 3 };
    pt_desk desk = PT_NO_DESK;
    pt_pid client, server;
    pt_call dropped;
    pt_request request;
    pt_item item;
    assert(pt_open(&desk, 1, settings) == PT_OK && pt_spawn(&desk, &client) == PT_OK && pt_spawn(&desk, &server) == PT_OK);
    assert(pt_ask(&desk, client, server, KIND, &dropped) == PT_OK);
    assert(pt_send(&desk, client, server, (pt_body){.kind = KIND}) == PT_OK);
    item = receive(&desk, server);
    assert(item.body.kind == KIND && is_call(server, item) && pt_request_of(item, &request) == PT_OK);
    assert(pt_reply(&desk, server, request, KIND) == PT_OK);
    item = receive(&desk, server);
    assert(item.body.kind == KIND && !is_call(server, item) && pt_request_of(item, &request) == PT_NOTHING);
    assert(pt_send(&desk, server, client, (pt_body){.kind = KIND}) == PT_OK);
    item = receive(&desk, client);
    assert(item.code == PT_ITEM_USER && item.body.kind == KIND && is_call(client, item));
    assert(!is_call(server, item)); /* it names another process */
    item = receive(&desk, client);
    assert(item.code == PT_ITEM_USER && item.body.kind == KIND && !is_call(client, item));
    assert(pt_exit(&desk, server, (pt_reason){PT_NORMAL, 0}) == PT_OK);
    item = receive(&desk, client);
    assert(item.code == PT_ITEM_DOWN && !is_call(client, item)); /* a DOWN is no message */
    assert(pt_give_up(&desk) == PT_OK);
    puts("an answer is told from a message of that kind");
}

/* ---- a way in, by itself */

static void *hand_in(void *at) {
    pt_door *door = at;
    for (int64_t k = 0; k < MANY; k++) {
        uint32_t code;
        while ((code = pt_door_post(door, (pt_post){{0, 0, 1}, {.kind = 1, .num = k}})) == PT_FULL) sched_yield();
        assert(code == PT_OK);
    }
    assert(pt_door_give_up(door) == PT_OK);
    return NULL;
}

/* What is handed in is taken out, in order, each message once. */
static void doors(void) {
    pt_door door = PT_NO_DOOR, other = PT_NO_DOOR;
    pt_way_in way_in = PT_NO_WAY_IN;
    pt_post post = {{7, 7, 7}, {.kind = 7}};
    pthread_t thread;
    size_t count = 7;
    assert(pt_door_post(&door, post) == PT_EMPTY && pt_way_in_take(&way_in, &post) == PT_EMPTY && post.body.kind == 7);
    assert(pt_way_in_len(&way_in, &count) == PT_EMPTY && count == 7 && pt_door_give_up(&door) == PT_EMPTY);
    assert(pt_door_open(&door, &way_in, 2) == PT_OK && pt_door_open(&other, &way_in, 2) == PT_FILLED && !other.at);
    assert(pt_way_in_take(&way_in, &post) == PT_NOTHING && pt_way_in_len(&way_in, &count) == PT_OK && count == 0);
    assert(pt_door_post(&door, post) == PT_OK && pt_door_post(&door, post) == PT_OK);
    assert(pt_door_post(&door, post) == PT_FULL && pt_way_in_len(&way_in, &count) == PT_OK && count == 2);
    assert(pt_way_in_take(&way_in, &post) == PT_OK && post.to.slot == 7 && pt_way_in_take(&way_in, &post) == PT_OK);
    assert(pthread_create(&thread, NULL, hand_in, &door) == 0);
    for (int64_t k = 0; k < MANY;) {
        uint32_t code = pt_way_in_take(&way_in, &post);
        assert(code == PT_OK ? post.body.num == k : code == PT_NOTHING);
        if (code == PT_OK) k++;
        else sched_yield();
    }
    assert(pthread_join(thread, NULL) == 0);
    assert(pt_way_in_give_up(&way_in) == PT_OK && pt_way_in_give_up(&way_in) == PT_EMPTY);
    printf("%d messages came in, in order\n", MANY);
}

/* Hands in until the way in is gone, as the loop of a thread without a desk does. */
static void *hand_in_for_ever(void *at) {
    uint32_t code;
    while ((code = pt_door_post(at, (pt_post){{0, 0, 1}, {.kind = 1}})) != PT_GONE) {
        assert(code == PT_OK || code == PT_FULL);
        sched_yield();
    }
    return NULL;
}

/* A door whose way in was given up says so, with free places and without, and a loop that waits for a place ends. */
static void gone(void) {
    pt_door door = PT_NO_DOOR;
    pt_way_in way_in = PT_NO_WAY_IN;
    pt_post post = {{0, 0, 1}, {.kind = 1}};
    pthread_t thread;
    size_t count;
    for (int handed_in = 0; handed_in <= 2; handed_in++) {
        assert(pt_door_open(&door, &way_in, 2) == PT_OK);
        for (int k = 0; k < handed_in; k++) assert(pt_door_post(&door, post) == PT_OK);
        assert(pt_way_in_give_up(&way_in) == PT_OK);
        for (int k = 0; k < 5; k++) assert(pt_door_post(&door, post) == PT_GONE);
        assert(pt_door_give_up(&door) == PT_OK && pt_door_post(&door, post) == PT_EMPTY);
    }
    assert(pt_door_open(&door, &way_in, 2) == PT_OK && pthread_create(&thread, NULL, hand_in_for_ever, &door) == 0);
    do assert(pt_way_in_len(&way_in, &count) == PT_OK);
    while (count < 2);
    assert(pt_way_in_give_up(&way_in) == PT_OK && pthread_join(thread, NULL) == 0 && pt_door_give_up(&door) == PT_OK);
    /* what was handed in is taken out also if the door was given up first */
    assert(pt_door_open(&door, &way_in, 2) == PT_OK && pt_door_post(&door, post) == PT_OK);
    assert(pt_door_give_up(&door) == PT_OK && pt_way_in_take(&way_in, &post) == PT_OK);
    assert(pt_way_in_take(&way_in, &post) == PT_NOTHING && pt_way_in_give_up(&way_in) == PT_OK);
    puts("a door whose way in was given up says so");
}

/* A way in has a place at least. Nothing has changed if none is asked for, and a handle that is not empty comes first. */
static void no_places(void) {
    pt_door door = PT_NO_DOOR, other = PT_NO_DOOR;
    pt_way_in way_in = PT_NO_WAY_IN, entry = PT_NO_WAY_IN;
    assert(pt_door_open(&door, &way_in, 0) == PT_BAD_PLACES && !door.at && !way_in.at);
    assert(pt_door_open(&door, &way_in, 1) == PT_OK && pt_door_open(&other, &way_in, 0) == PT_FILLED && !other.at);
    assert(pt_door_open(&door, &entry, 0) == PT_FILLED && !entry.at);
    assert(pt_door_give_up(&door) == PT_OK && pt_way_in_give_up(&way_in) == PT_OK);
}

/* ---- two desks, whose threads sleep */

/* The bell of a desk: how often it was rung. */
typedef struct { pthread_mutex_t lock; pthread_cond_t rung; uint64_t rings; } bell;

static bell bells[2] = {{PTHREAD_MUTEX_INITIALIZER, PTHREAD_COND_INITIALIZER, 0},
    {PTHREAD_MUTEX_INITIALIZER, PTHREAD_COND_INITIALIZER, 0}};

static void ring(int desk) {
    pthread_mutex_lock(&bells[desk].lock);
    bells[desk].rings++;
    pthread_cond_signal(&bells[desk].rung);
    pthread_mutex_unlock(&bells[desk].lock);
}

static uint64_t rings_of(int desk) {
    pthread_mutex_lock(&bells[desk].lock);
    uint64_t rings = bells[desk].rings;
    pthread_mutex_unlock(&bells[desk].lock);
    return rings;
}

static void sleep_at(int desk, uint64_t rings) {
    pthread_mutex_lock(&bells[desk].lock);
    while (bells[desk].rings == rings) pthread_cond_wait(&bells[desk].rung, &bells[desk].lock);
    pthread_mutex_unlock(&bells[desk].lock);
}

static pt_desk desks[2];

/* A turn, and the desks to which it may have posted are woken. */
static void turn(int desk) {
    uint64_t out;
    pt_turned turned;
    assert(pt_letters_out(&desks[desk], &out) == PT_OK && pt_turn(&desks[desk], 64, &turned) == PT_OK);
    for (int other = 0; other < 2; other++)
        if (other != desk && (out >> other & 1)) ring(other);
}

/* The server doubles each number until it is asked to exit. */
static void *serve(void *at) {
    pt_pid me = *(pt_pid *)at;
    pt_item item;
    pt_request request;
    bool has, lives = true;
    while (lives) {
        uint64_t rings = rings_of(1); /* read before the look */
        turn(1);
        while (lives && pt_receive(&desks[1], me, any, &item) == PT_OK) {
            if (pt_request_of(item, &request) != PT_OK) continue;
            if (request.asks == 0) lives = pt_exit(&desks[1], me, (pt_reason){PT_SHUTDOWN, 0}) != PT_OK;
            else assert(pt_reply(&desks[1], me, request, 2 * request.asks) == PT_OK);
        }
        assert(pt_has_letters(&desks[1], &has) == PT_OK);
        if (lives && !has) sleep_at(1, rings);
    }
    turn(1); /* its DOWN goes out */
    return NULL;
}

static pt_door door;

/* A thread without a desk hands in numbers, and a zero last. */
static void *outside(void *at) {
    pt_pid client = *(pt_pid *)at;
    for (int64_t k = 3; k >= 0; k--) {
        while (pt_door_post(&door, (pt_post){client, {.kind = ASKS, .num = k}}) == PT_FULL) sched_yield();
        ring(0);
    }
    return NULL;
}

/* The client asks for each number that came in at the door, one after the other. */
static void asks(pt_pid client, pt_pid server, pt_way_in *way_in) {
    pt_call call = {.waits = false};
    pt_heard heard = {.code = PT_HEARD_NOT_MINE};
    pt_post post;
    pt_item item;
    bool has;
    while (heard.code != PT_HEARD_SERVER_DOWN) {
        uint64_t rings = rings_of(0);
        size_t waits = 0;
        turn(0);
        while (pt_receive(&desks[0], client, any, &item) == PT_OK) {
            assert(pt_hear(&desks[0], &call, item, &heard) == PT_OK);
            print("over two desks", heard);
        }
        if (!call.waits && pt_way_in_take(way_in, &post) == PT_OK)
            assert(pt_ask(&desks[0], client, server, (uint32_t)post.body.num, &call) == PT_OK);
        assert(pt_has_letters(&desks[0], &has) == PT_OK && pt_way_in_len(way_in, &waits) == PT_OK);
        if (heard.code != PT_HEARD_SERVER_DOWN && !has && (call.waits || waits == 0)) sleep_at(0, rings);
    }
}

static void sleeping(void) {
    pt_pid client, server;
    pt_way_in way_in = PT_NO_WAY_IN;
    pthread_t threads[2];
    uint64_t out;
    uint8_t from;
    bool has;
    assert(pt_open(desks, 2, settings) == PT_OK && pt_spawn(&desks[0], &client) == PT_OK);
    assert(pt_spawn(&desks[1], &server) == PT_OK && pt_door_open(&door, &way_in, 2) == PT_OK);
    assert(pt_letters_out(&desks[0], &out) == PT_OK && out == 0 && pt_has_letters(&desks[0], &has) == PT_OK && !has);
    assert(pt_send(&desks[0], client, client, (pt_body){.kind = 9}) == PT_OK);
    assert(pt_letters_out(&desks[0], &out) == PT_OK && out == 1 && pt_has_letters(&desks[0], &has) == PT_OK && has);
    assert(pt_send(&desks[0], client, server, (pt_body){.kind = 9}) == PT_OK);
    assert(pt_letters_out(&desks[0], &out) == PT_OK && out == 3);
    turn(0);
    assert(pt_letters_out(&desks[0], &out) == PT_OK && out == 0);
    assert(pt_has_letters(&desks[1], &has) == PT_OK && has); /* it is in the lane */
    assert(pt_next_from(&desks[1], &from) == PT_OK && from == 0);
    assert(pt_look_from(&desks[1], 1) == PT_OK && pt_next_from(&desks[1], &from) == PT_OK && from == 0);
    assert(pt_look_from(&desks[1], 2) == PT_OK && pt_look_from(&desks[1], 0) == PT_OK); /* there is no desk 2 */
    from = 7;
    assert(pt_next_from(&desks[0], &from) == PT_NOTHING && from == 7);
    assert(pthread_create(&threads[0], NULL, serve, &server) == 0 && pthread_create(&threads[1], NULL, outside, &client) == 0);
    asks(client, server, &way_in);
    assert(pthread_join(threads[0], NULL) == 0 && pthread_join(threads[1], NULL) == 0);
    assert(pt_door_give_up(&door) == PT_OK && pt_way_in_give_up(&way_in) == PT_OK);
    assert(pt_give_up(&desks[0]) == PT_OK && pt_give_up(&desks[1]) == PT_OK);
}

int main(void) {
    refused();
    ends();
    kinds();
    doors();
    gone();
    no_places();
    sleeping();
    return 0;
}
