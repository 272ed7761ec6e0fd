/* A node that is watched while it runs. Runners throw balls to each other, and clerks under a supervisor break down now and
 * then. The thread of the desk serves the observer's page between two steps, and each count and list on it is read by the
 * calls of the library.
 *
 *     observe PAGE [SECONDS [RUNNERS]]
 *
 * PAGE is the file observer.html. The address of the page is printed first. It runs for so many seconds, or until its input
 * ends. At the end each ball is caught, and what was
 * counted is compared with the history: if anything was lost, the status is 1. */
#ifndef _GNU_SOURCE
#define _GNU_SOURCE /* for observer.h */
#endif
#include <assert.h>
#include <inttypes.h>
#include <poll.h>

#include "observer.h"
#include "pundewo.h"
#include "pundewo_text.h"

enum { CLERKS = 4, RUNNER = CLERKS, SUPERVISOR, OWNER, BALL = 1, BALLS = 64, FIRST = 8, PAGE = 1000, JOBS = 256, EPOCH = 200000 };

typedef struct world {
    pt_desk desk;
    pt_crew crew;
    pt_pid owner, supervisor, *runners, longest;
    size_t count;        /* runners */
    const char *page;
    double begun, took, longest_time;
    bool is_ending;
    uint64_t now;        /* milliseconds since it has begun */
    uint64_t thrown, caught, messages, taken, handlers, losses, spawned, crashes, restarts, epochs, archived, longest_tag;
    uint64_t started[CLERKS], work[CLERKS];
} world;

static const pt_next wait = {.code = PT_NEXT_WAIT, .pick = {.code = PT_PICK_ANY}};
static const char *const restarts[] = {"permanent", "transient", "temporary"};

static const char *behaviour(uint64_t tag) { return tag < CLERKS ? "clerk" : tag == RUNNER ? "runner" : "supervisor"; }

/* ---- the program */

/* Throws a ball to the next runner but many. */
static void throw_ball(world *w, pt_pid from) {
    pt_pid to = w->runners[++w->thrown * 7919 % w->count];
    assert(pt_send(&w->desk, from, to, (pt_body){.kind = BALL, .num = (int64_t)w->thrown}) == PT_OK);
}

/* A clerk works each ten milliseconds. The fiftieth piece of work breaks it. */
static pt_next clerk(world *w, const pt_job *job) {
    if (job->code == PT_JOB_START) {
        w->spawned++;
        w->started[job->tag]++;
        w->restarts += job->again;
        w->work[job->tag] = 0;
    } else if (job->code == PT_JOB_TIMEOUT && ++w->work[job->tag] == 50) {
        return (pt_next){.code = PT_NEXT_STOP, .reason = {PT_OTHER, 7}};
    }
    return (pt_next){.code = PT_NEXT_WAIT_UNTIL, .pick = wait.pick, .until = w->now + 10};
}

static pt_next handle(world *w, const pt_job *job) {
    w->handlers++;
    w->messages += job->code == PT_JOB_ITEM;
    if (job->tag < CLERKS) return clerk(w, job);
    if (job->code == PT_JOB_ITEM && w->is_ending) w->caught++;
    else if (job->code == PT_JOB_ITEM) throw_ball(w, job->pid);
    return wait;
}

/* Runs a handler, and notes how long that took. */
static pt_next timed(world *w, const pt_job *job) {
    double begun = observer_now(), time;
    pt_next next = handle(w, job);
    time = observer_now() - begun;
    if (time > w->longest_time) {
        w->longest_time = time;
        w->longest = job->pid;
        w->longest_tag = job->tag;
    }
    return next;
}

/* What was lost since the last step: items of a process that has exited, and messages to one that had. */
static void note_losses(world *w) {
    pt_loss loss;
    while (pt_loss_at(&w->desk, 0, &loss) == PT_OK) {
        w->losses += loss.has_exited ? loss.items : 1;
        assert(pt_crew_note_loss(&w->crew, &w->desk, 0) == PT_OK && pt_next_loss(&w->desk) == PT_OK);
    }
}

static void step(world *w) {
    pt_job jobs[JOBS];
    pt_answer answers[JOBS];
    pt_turned turned;
    size_t count, taken, told = 0;
    w->now = (uint64_t)((observer_now() - w->begun) * 1000);
    assert(pt_crew_set_time(&w->crew, w->now) == PT_OK);
    assert(pt_turn(&w->desk, 4 * JOBS, &turned) == PT_OK && turned.stopped == PT_OK);
    note_losses(w);
    assert(pt_crew_step(&w->crew, &w->desk, 0, jobs, JOBS, &count, &turned) == PT_OK);
    for (size_t k = 0; k < count; k++) {
        if (jobs[k].code != PT_JOB_EXIT) answers[told++] = (pt_answer){jobs[k].pid, timed(w, &jobs[k])};
        else w->crashes += jobs[k].reason.code == PT_OTHER;
    }
    assert(pt_crew_answer(&w->crew, answers, told, &taken) == PT_OK && taken == told);
}

/* Counts what a history has of messages that were taken. */
static void count_taken(world *w, pt_history *history) {
    pt_event event;
    size_t count;
    assert(pt_history_count(history, &count) == PT_OK);
    for (size_t k = 0; k < count; k++) {
        assert(pt_history_at(history, k, &event) == PT_OK);
        w->taken += event.code == PT_EVENT_TOOK && event.item.code == PT_ITEM_USER;
    }
    w->archived += count;
    w->epochs++;
    assert(pt_history_give_up(history) == PT_OK);
}

/* Once the journal is long, its events are counted, and the node goes on without them. */
static void go_on(world *w, size_t most) {
    pt_gathered gathered = PT_NO_GATHERED;
    pt_quiet settled = PT_NO_QUIET;
    pt_history history = PT_NO_HISTORY;
    size_t count;
    assert(pt_event_count(&w->desk, &count) == PT_OK);
    if (count < most) return;
    assert(pt_crews_go_on(&w->crew, 1, &w->desk, 1, &gathered, &settled, &history) == PT_OK);
    note_losses(w);
    count_taken(w, &history);
}

static void open_world(world *w) {
    const pt_child_spec clerks[CLERKS] = {{.tag = 0}, {.tag = 1}, {.tag = 2}, {.tag = 3}};
    pt_config config = PT_CONFIG_DEFAULT;
    pt_supervisor_spec spec = {.strategy = PT_ONE_FOR_ONE, .timed = true, .has_parent = true, .most = 1000, .span = 1000};
    config.slots = (uint32_t)w->count + 64;
    assert(pt_open(&w->desk, 1, config) == PT_OK && pt_keep_losses(&w->desk, true) == PT_OK);
    assert(pt_crew_open(&w->crew) == PT_OK && pt_spawn(&w->desk, &w->owner) == PT_OK);
    spec.parent = w->owner;
    assert(pt_crew_spawn_supervisor(&w->crew, &w->desk, SUPERVISOR, spec, clerks, CLERKS, &w->supervisor) == PT_OK);
    w->runners = calloc(w->count, sizeof *w->runners);
    assert(w->runners != NULL);
    for (size_t k = 0; k < w->count; k++)
        assert(pt_crew_spawn(&w->crew, &w->desk, RUNNER, wait, &w->runners[k]) == PT_OK);
    w->spawned = w->count + 2;
    for (size_t k = 0; k < BALLS; k++) throw_ball(w, w->owner);
}

/* ---- what the page shows of it */

static void put_pid(FILE *to, pt_pid p) {
    putc('"', to);
    pt_print_pid(to, p);
    putc('"', to);
}

/* The first items of a mailbox, and how many there are. */
static void put_mailbox(world *w, FILE *to, pt_pid p) {
    pt_item item;
    size_t count = 0;
    assert(pt_waiting(&w->desk, p, &count) == PT_OK);
    fprintf(to, "\"mailbox\":{\"count\":%zu,\"first\":[", count);
    for (size_t k = 0; k < count && k < FIRST; k++) {
        assert(pt_peek(&w->desk, p, k, &item) == PT_OK);
        fputs(k == 0 ? "\"" : ",\"", to);
        pt_print_item(to, item);
        putc('"', to);
    }
    fputs("]},", to);
}

/* The processes with which it is linked, which it monitors, or which monitor it. */
static uint32_t peer_at(world *w, int kind, pt_pid p, size_t place, pt_pid *peer) {
    pt_ids ids;
    pt_ref monitor;
    if (kind == 0) return pt_link_at(&w->desk, p, place, peer, &ids);
    return kind == 1 ? pt_monitor_at(&w->desk, p, place, &monitor, peer) : pt_watcher_at(&w->desk, p, place, &monitor, peer);
}

static void put_peers(world *w, FILE *to, int kind, pt_pid p) {
    static const char *const names[] = {"links", "monitors", "watchers"};
    pt_pid peer;
    size_t count = 0;
    uint32_t code = kind == 0 ? pt_link_count(&w->desk, p, &count)
        : kind == 1           ? pt_monitor_count(&w->desk, p, &count)
                              : pt_watcher_count(&w->desk, p, &count);
    assert(code == PT_OK);
    fprintf(to, "\"%s\":{\"count\":%zu,\"first\":[", names[kind], count);
    for (size_t k = 0; k < count && k < FIRST; k++) {
        assert(peer_at(w, kind, p, k, &peer) == PT_OK);
        if (k != 0) putc(',', to);
        put_pid(to, peer);
    }
    fputs("]},", to);
}

/* What it waits for, and how many seconds are left. A process that is not in the crew waits for nothing. */
static void put_next(world *w, FILE *to, pt_pid p) {
    pt_next next;
    bool waits = pt_crew_next(&w->crew, p, &next) == PT_OK && (next.code == PT_NEXT_WAIT || next.code == PT_NEXT_WAIT_UNTIL);
    fputs("\"waits_for\":\"", to);
    if (waits) pt_print_pick(to, next.pick);
    else fputs("nothing", to);
    if (waits && next.code == PT_NEXT_WAIT_UNTIL)
        fprintf(to, "\",\"time_left\":%.3f,", next.until > w->now ? (double)(next.until - w->now) / 1000 : 0.0);
    else fputs("\",\"time_left\":null,", to);
}

/* The process that spawned it: the owner the supervisor, and that one its clerks. */
static void put_parent(world *w, FILE *to, uint64_t tag) {
    fputs(",\"parent\":", to);
    if (tag <= SUPERVISOR && tag != RUNNER) put_pid(to, tag == SUPERVISOR ? w->owner : w->supervisor);
    else fputs("null", to);
}

static void put_process(world *w, FILE *to, pt_pid p) {
    uint64_t tag = OWNER;
    bool traps = false, is_owner = pt_crew_tag(&w->crew, p, &tag) != PT_OK;
    assert(pt_traps(&w->desk, p, &traps) == PT_OK);
    fputs("{\"pid\":", to);
    put_pid(to, p);
    put_parent(w, to, tag);
    fprintf(to, ",\"behaviour\":\"%s\",\"names\":[],", is_owner ? "owner" : behaviour(tag));
    put_next(w, to, p);
    put_mailbox(w, to, p);
    for (int kind = 0; kind < 3; kind++) put_peers(w, to, kind, p);
    fprintf(to, "\"aside\":0,\"calls\":0,\"traps_exits\":%s}", traps ? "true" : "false");
}

/* A page of processes, by slots. `next` is the slot at which the next page begins. */
static void put_processes(world *w, FILE *to, uint32_t slot) {
    size_t told = 0;
    pt_pid p;
    fputs("\"processes\":[", to);
    for (; slot < w->count + 64 && told < PAGE; slot++) {
        if (pt_lives_in(&w->desk, slot, &p) != PT_OK) continue;
        if (told++ != 0) putc(',', to);
        put_process(w, to, p);
    }
    if (slot < w->count + 64) fprintf(to, "],\"next\":\"%u\",", slot);
    else fputs("],\"next\":null,", to);
}

static void put_supervisor(world *w, FILE *to) {
    pt_child child;
    size_t count = 0;
    assert(pt_crew_children(&w->crew, w->supervisor, &count) == PT_OK);
    fputs("\"supervisors\":[{\"pid\":", to);
    put_pid(to, w->supervisor);
    fputs(",\"parent\":", to);
    put_pid(to, w->owner);
    fprintf(to, ",\"depth\":0,\"strategy\":\"one_for_one\",\"restarts\":%" PRIu64 ",\"children\":{\"count\":%zu,\"first\":[",
        w->restarts, count);
    for (size_t k = 0; k < count; k++) {
        assert(pt_crew_child(&w->crew, w->supervisor, k, &child) == PT_OK);
        fprintf(to, "%s{\"place\":%zu,\"name\":null,\"pid\":", k == 0 ? "" : ",", k);
        if (child.has_pid) put_pid(to, child.pid);
        else fputs("null", to);
        fprintf(to, ",\"behaviour\":\"clerk\",\"restart\":\"%s\",\"started\":%" PRIu64 "}", restarts[child.restart], w->started[k]);
    }
    fputs("]}}]", to);
}

/* What is told of the desk: names and values, for the page and for Prometheus. */
typedef struct fact { const char *field, *name, *type, *about; uint64_t value; } fact;
enum { FACTS = 9 };

static void facts_of(world *w, fact facts[FACTS]) {
    size_t alive, queued, events;
    uint64_t letters;
    assert(pt_crew_len(&w->crew, &alive) == PT_OK && pt_crew_queued(&w->crew, &queued) == PT_OK);
    assert(pt_event_count(&w->desk, &events) == PT_OK && pt_pending(&w->desk, &letters) == PT_OK);
    const fact all[FACTS] = {
        {"processes", "pundewo_processes", "gauge", "Processes that live.", alive + 1},
        {"supervisors", "pundewo_supervisors", "gauge", "Supervisors that live.", 1},
        {"messages", "pundewo_messages_total", "counter", "Messages that processes have taken.", w->messages},
        {"handlers", "pundewo_handlers_total", "counter", "Handlers that ran.", w->handlers},
        {"restarts", "pundewo_restarts_total", "counter", "Restarts that supervisors have made.", w->restarts},
        {"losses", "pundewo_losses_total", "counter", "Messages to processes that have exited.", w->losses},
        {"queue", "pundewo_queue", "gauge", "Processes that may have something to do.", queued},
        {"waiting_for_room", "pundewo_waiting_for_room", "gauge", "Letters that wait in the outbox.", letters},
        {"journal", "pundewo_journal_events", "gauge", "Events in the journal.", events},
    };
    memcpy(facts, all, sizeof all);
}

static void put_desk(world *w, FILE *to) {
    fact facts[FACTS];
    uint64_t clock;
    assert(pt_clock(&w->desk, &clock) == PT_OK);
    facts_of(w, facts);
    fputs("\"desks\":[{\"desk\":0,", to);
    for (int k = 0; k < FACTS; k++) fprintf(to, "\"%s\":%" PRIu64 ",", facts[k].field, facts[k].value);
    if (w->longest_time > 0) {
        fputs("\"longest\":{\"pid\":", to);
        put_pid(to, w->longest);
        fprintf(to, ",\"behaviour\":\"%s\",\"seconds\":%.6f},", behaviour(w->longest_tag), w->longest_time);
    } else {
        fputs("\"longest\":null,", to);
    }
    fprintf(to, "\"clock\":%" PRIu64 "}],\"silent\":[],", clock);
}

/* How many bytes of memory the program has, or 0. */
static uint64_t memory(void) {
    unsigned long size = 0, resident = 0;
    FILE *from = fopen("/proc/self/statm", "r");
    if (from == NULL) return 0;
    if (fscanf(from, "%lu %lu", &size, &resident) != 2) resident = 0;
    fclose(from);
    return (uint64_t)resident * (uint64_t)sysconf(_SC_PAGESIZE);
}

static void put_state(world *w, FILE *to, const char *query) {
    const char *after = observer_field(query, "after");
    double begun = observer_now();
    size_t alive;
    assert(pt_crew_len(&w->crew, &alive) == PT_OK);
    fputs("{", to);
    put_desk(w, to);
    put_processes(w, to, after == NULL ? 0 : (uint32_t)strtoul(after, NULL, 10));
    put_supervisor(w, to);
    w->took = observer_now() - begun;
    fprintf(to,
        ",\"uptime\":%.6f,\"took\":%.6f,\"is_over\":false,\"alive\":%zu,\"spawned\":%" PRIu64 ",\"crashes\":%" PRIu64
        ",\"epochs\":%" PRIu64 ",\"archived\":%" PRIu64 ",\"memory\":%" PRIu64 "}",
        observer_now() - w->begun, w->took, alive + 1, w->spawned, w->crashes, w->epochs, w->archived, memory());
}

static void put_metrics(world *w, FILE *to) {
    fact facts[FACTS];
    const fact run[] = {
        {NULL, "pundewo_uptime_seconds", "gauge", "How long the run has run.", w->now / 1000},
        {NULL, "pundewo_spawned_total", "counter", "Processes that were spawned.", w->spawned},
        {NULL, "pundewo_crashes_total", "counter", "Processes that crashed.", w->crashes},
        {NULL, "pundewo_epochs_total", "counter", "Epochs that have ended.", w->epochs},
        {NULL, "pundewo_archived_events_total", "counter", "Events that the program has counted.", w->archived},
        {NULL, "pundewo_memory_bytes", "gauge", "Memory of the program.", memory()},
    };
    facts_of(w, facts);
    for (size_t k = 0; k < sizeof run / sizeof *run; k++)
        fprintf(to, "# HELP %s %s\n# TYPE %s %s\n%s %" PRIu64 "\n", run[k].name, run[k].about, run[k].name, run[k].type, run[k].name,
            run[k].value);
    for (int k = 0; k < FACTS; k++)
        fprintf(to, "# HELP %s %s\n# TYPE %s %s\n%s{desk=\"0\"} %" PRIu64 "\n", facts[k].name, facts[k].about, facts[k].name,
            facts[k].type, facts[k].name, facts[k].value);
    fprintf(to,
        "# HELP pundewo_longest_handler_seconds The longest run of a handler.\n# TYPE pundewo_longest_handler_seconds gauge\n"
        "pundewo_longest_handler_seconds{desk=\"0\"} %.6f\n"
        "# HELP pundewo_desk_up Whether the desk answered in time.\n# TYPE pundewo_desk_up gauge\npundewo_desk_up{desk=\"0\"} 1\n",
        w->longest_time);
}

/* What a clerk or a runner says of itself. */
static void put_one(world *w, FILE *to, const char *query) {
    const char *field = observer_field(query, "pid");
    unsigned shard, slot, version;
    uint64_t tag;
    if (field == NULL || sscanf(field, "%u.%u.%u", &shard, &slot, &version) != 3 || shard > 255) {
        fputs("{\"fault\":\"this is no pid\"}", to);
        return;
    }
    pt_pid p = {(uint8_t)shard, slot, version};
    if (pt_crew_tag(&w->crew, p, &tag) != PT_OK) fputs("{\"fault\":\"no such process is in the crew\"}", to);
    else if (tag < CLERKS) fprintf(to, "{\"text\":\"%" PRIu64 " pieces of work done\"}", w->work[tag]);
    else fprintf(to, "{\"text\":\"%s\"}", tag == RUNNER ? "it throws what it gets" : "it starts its clerks again");
}

static const char *put(void *at, FILE *to, const char *path, const char *query) {
    world *w = at;
    if (strcmp(path, "") == 0) return fputs(w->page, to) < 0 ? NULL : "text/html; charset=utf-8";
    if (strcmp(path, "state") == 0) return put_state(w, to, query), "application/json";
    if (strcmp(path, "inspect") == 0) return put_one(w, to, query), "application/json";
    if (strcmp(path, "metrics") == 0) return put_metrics(w, to), "text/plain; version=0.0.4; charset=utf-8";
    return NULL;
}

/* ---- both together */

static char *read_page(const char *path) {
    FILE *from = fopen(path, "r");
    char *text = NULL;
    size_t length = 0;
    if (from == NULL) return NULL;
    FILE *to = open_memstream(&text, &length);
    assert(to != NULL);
    for (int letter = getc(from); letter != EOF; letter = getc(from)) putc(letter, to);
    fclose(from);
    fclose(to);
    return text;
}

/* Whether the input has ended. It does not wait. */
static bool input_has_ended(void) {
    struct pollfd input = {.fd = STDIN_FILENO, .events = POLLIN};
    char rest[256];
    return poll(&input, 1, 0) > 0 && read(STDIN_FILENO, rest, sizeof rest) <= 0;
}

/* Steps and serves until the time is over or the input has ended, and each ball is caught. A rest of a millisecond keeps the processor free. */
static void run(world *w, observer *o, double seconds) {
    const struct timespec rest = {0, 1000000};
    while (w->caught < BALLS) {
        w->is_ending = w->is_ending || observer_now() - w->begun > seconds || input_has_ended();
        step(w);
        go_on(w, EPOCH);
        observer_serve(o, put, w);
        nanosleep(&rest, NULL);
    }
}

int main(int count, char **words) {
    static observer o;
    world w = {.desk = PT_NO_DESK, .crew = PT_NO_CREW, .count = count > 3 ? strtoul(words[3], NULL, 10) : 1000};
    char *page = count > 1 ? read_page(words[1]) : NULL;
    if (page == NULL || w.count == 0 || w.count > 60000 || !observer_open(&o, 0)) {
        fputs("observe PAGE [SECONDS [RUNNERS]]: no such page, no port, or a number out of 1 to 60000\n", stderr);
        free(page);
        return 2;
    }
    w.page = page;
    w.begun = observer_now();
    open_world(&w);
    printf("http://127.0.0.1:%u/%s/\n", o.port, o.token);
    fflush(stdout);
    run(&w, &o, count > 2 ? strtod(words[2], NULL) : 60);
    go_on(&w, 0);
    bool is_right = w.caught == BALLS && w.messages == w.thrown && w.taken == w.messages && w.losses == 0;
    printf("%" PRIu64 " balls thrown, %" PRIu64 " messages, %" PRIu64 " in the history, %" PRIu64 " restarts, %" PRIu64 " lost: %s\n",
        w.thrown, w.messages, w.taken, w.restarts, w.losses, is_right ? "all is there" : "something is missing");
    observer_close(&o);
    assert(pt_crew_give_up(&w.crew) == PT_OK && pt_give_up(&w.desk) == PT_OK);
    free(w.runners);
    free(page);
    return is_right ? 0 : 1;
}
