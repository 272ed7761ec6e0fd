/* Plays the table of worked rows (bindings/rows.py), with those of crews, through the C interface, and compares each
 * answer. */
#define _POSIX_C_SOURCE 200809L /* fmemopen */

#include <stdlib.h>
#include <string.h>

#include "pundewo.h"
#include "pundewo_text.h"

enum { MOST_DESKS = 64, MOST_HANDLES = MOST_DESKS + 2, MOST_WORDS = 16, MOST_BYTES = 65536, MOST_JOBS = 16 };

/* A node, in one of its states. Its desks are in one of two places, so that a refused open leaves them alone. The row may
 * have a crew for each. */
typedef struct {
    pt_desk desks[2][MOST_HANDLES];
    size_t place, count;
    bool is_running;
    pt_gathered gathered;
    pt_quiet quiet;
    pt_crew crews[MOST_HANDLES];
} node;

/* ---- words of the table */

static pt_pid pid_of(const char *word) {
    unsigned shard = 0, slot = 0, version = 0;
    sscanf(word, "<%u.%u.%u>", &shard, &slot, &version);
    return (pt_pid){(uint8_t)shard, slot, version};
}

static pt_ref ref_of(const char *word) {
    unsigned desk = 0;
    uint64_t number = 0;
    sscanf(word, "#%u.%" SCNu64, &desk, &number);
    return (pt_ref){(uint8_t)desk, number};
}

static uint32_t number_of(const char *word) { return (uint32_t)strtoul(word, NULL, 10); }

static pt_reason reason_of(const char *word) {
    static const char *const names[] = {"normal", "kill", "killed", "noproc", "shutdown"};
    for (uint32_t k = 0; k < 5; k++)
        if (!strcmp(word, names[k])) return (pt_reason){k, 0};
    return (pt_reason){PT_OTHER, number_of(word + strlen("other:"))};
}

static pt_pick pick_of(char **words) {
    pt_pick pick = {.code = PT_PICK_ANY};
    if (words[0] == NULL) return pick;
    if (!strcmp(words[0], "kind")) pick.code = PT_PICK_KIND, pick.kind = number_of(words[1]);
    if (!strcmp(words[0], "from")) pick.code = PT_PICK_FROM, pick.pid = pid_of(words[1]);
    if (!strcmp(words[0], "exit-of")) pick.code = PT_PICK_EXIT_OF, pick.pid = pid_of(words[1]);
    if (!strcmp(words[0], "down-of")) pick.code = PT_PICK_DOWN_OF, pick.reference = ref_of(words[1]);
    if (!strcmp(words[0], "alive-of")) pick.code = PT_PICK_ALIVE_OF, pick.reference = ref_of(words[1]);
    return pick;
}

/* ---- answers */

static void print_code(FILE *to, uint32_t code) {
    static const char *const settings[] = {"desks", "slots", "top_version", "lane", "start"};
    if (code >= PT_BAD_DESKS && code <= PT_BAD_START) {
        fprintf(to, "bounds %s", settings[code - PT_BAD_DESKS]);
        return;
    }
    for (const char *c = pt_code_name(code); *c; c++) fputc(*c >= 'A' && *c <= 'Z' ? *c - 'A' + 'a' : *c, to);
}

static void print_bool(FILE *to, uint32_t code, bool yes) {
    if (code == PT_OK) fputs(yes ? "true" : "false", to);
    else print_code(to, code);
}

static void print_turned(FILE *to, pt_turned turned) {
    fprintf(to, "posted %" PRIu64 " handled %" PRIu64, turned.posted, turned.handled);
    if (turned.stopped != PT_OK) fputs(", then ", to), print_code(to, turned.stopped);
}

static void print_ids_or_none(FILE *to, uint32_t code, pt_ids ids) {
    if (code == PT_OK) pt_print_ids(to, ids);
    else fputs("none", to);
}

/* Between two lines of an answer; `count` are already there. */
static void print_next(FILE *to, size_t count) {
    if (count > 0) fputs("; ", to);
}

static void print_nothing(FILE *to, size_t count) {
    if (count == 0) fputs("nothing", to);
}

/* ---- the node */

static pt_desk *desk_at(node *n, size_t desk) { return &n->desks[n->place][desk < n->count ? desk : 0]; }

/* The desk that the first word names, by its number or by a pid. */
static pt_desk *desk_of(node *n, char **w) {
    return desk_at(n, w[1] == NULL ? 0 : w[1][0] == '<' ? pid_of(w[1]).shard : number_of(w[1]));
}

/* Gives up the node in whatever state it is. Whether each handle was as it had to be. */
static bool give_up(node *n) {
    bool fine = true;
    if (n->is_running)
        for (size_t k = 0; k < n->count; k++) fine &= pt_give_up(&n->desks[n->place][k]) == PT_OK;
    if (n->gathered.at) fine &= pt_gathered_give_up(&n->gathered) == PT_OK;
    if (n->quiet.at) fine &= pt_quiet_give_up(&n->quiet) == PT_OK;
    for (size_t k = 0; k < n->count && n->crews[k].at; k++) fine &= pt_crew_give_up(&n->crews[k]) == PT_OK;
    n->is_running = false;
    n->count = 0;
    return fine;
}

/* The history of a gathered or settled node, which the caller gives up. */
static pt_history history_of(node *n) {
    pt_history history = PT_NO_HISTORY;
    if (n->gathered.at) pt_gathered_history(&n->gathered, &history);
    else pt_quiet_history(&n->quiet, &history);
    return history;
}

/* Gathers and settles what is left of a node, and gives it up. */
static int close_node(node *n, const char *row) {
    pt_history history;
    size_t events = 0, more = 0, left = 0;
    bool fine = true;
    if (n->is_running) {
        fine = pt_gather(n->desks[n->place], n->count, &n->gathered) == PT_OK;
        n->is_running = !fine;
    }
    if (fine && n->gathered.at) {
        history = history_of(n);
        fine = pt_history_count(&history, &events) == PT_OK && pt_history_give_up(&history) == PT_OK;
        uint32_t code = pt_settle(&n->gathered, &n->quiet);
        /* a clock at its limit takes no more receipts */
        if (code == PT_WORN) return !(give_up(n) && fine);
        history = history_of(n);
        fine = fine && code == PT_OK && pt_history_count(&history, &more) == PT_OK
            && pt_history_left_count(&history, &left) == PT_OK && pt_history_give_up(&history) == PT_OK
            && left == 0 && more >= events;
    }
    fine = give_up(n) && fine;
    if (!fine) printf("%s: not gathered or not settled\n", row);
    return !fine;
}

/* ---- calls of processes */

static void call_open(FILE *to, node *n, char **w) {
    pt_desk *fresh = n->desks[1 - n->place];
    size_t count = strtoul(w[1], NULL, 10);
    pt_config config = {number_of(w[2]), number_of(w[3]), number_of(w[4]), strtoull(w[5], NULL, 10)};
    if (count > MOST_HANDLES) {
        fputs("too many desks for this program", to);
        return;
    }
    uint32_t code = pt_open(fresh, count, config);
    if (code == PT_OK) {
        if (!give_up(n)) fputs("wrong ", to);
        n->place = 1 - n->place;
        n->count = count;
        n->is_running = true;
    }
    print_code(to, code);
}

static void print_spawned(FILE *to, uint32_t code, pt_pid pid) {
    if (code == PT_OK) pt_print_pid(to, pid);
    else print_code(to, code);
}

static void call_spawn(FILE *to, node *n, char **w) {
    pt_pid pid;
    uint32_t code = pt_spawn(desk_of(n, w), &pid);
    print_spawned(to, code, pid);
}

static void call_spawn_child(FILE *to, node *n, char **w) {
    pt_pid pid;
    uint32_t code = pt_spawn_child(desk_of(n, w), pid_of(w[1]), !strcmp(w[2], "true"), &pid);
    print_spawned(to, code, pid);
}

static void call_send(FILE *to, node *n, char **w) {
    pt_body body = {.kind = number_of(w[3]), .num = strtoll(w[4], NULL, 10)};
    if (w[5] != NULL) body.has_who = true, body.who = pid_of(w[6]);
    print_code(to, pt_send(desk_of(n, w), pid_of(w[1]), pid_of(w[2]), body));
}

static void call_exit_signal(FILE *to, node *n, char **w) {
    print_code(to, pt_exit_signal(desk_of(n, w), pid_of(w[1]), pid_of(w[2]), reason_of(w[3])));
}

static void call_link(FILE *to, node *n, char **w) {
    print_code(to, pt_link(desk_of(n, w), pid_of(w[1]), pid_of(w[2])));
}

static void call_unlink(FILE *to, node *n, char **w) {
    print_code(to, pt_unlink(desk_of(n, w), pid_of(w[1]), pid_of(w[2])));
}

static void call_exit(FILE *to, node *n, char **w) {
    print_code(to, pt_exit(desk_of(n, w), pid_of(w[1]), reason_of(w[2])));
}

static void call_trap(FILE *to, node *n, char **w) {
    bool was = false;
    uint32_t code = pt_trap(desk_of(n, w), pid_of(w[1]), !strcmp(w[2], "true"), &was);
    print_bool(to, code, was);
}

static void print_named(FILE *to, uint32_t code, pt_ref ref) {
    if (code == PT_OK) pt_print_ref(to, ref);
    else print_code(to, code);
}

static void call_monitor(FILE *to, node *n, char **w) {
    pt_ref ref;
    uint32_t code = pt_monitor(desk_of(n, w), pid_of(w[1]), pid_of(w[2]), &ref);
    print_named(to, code, ref);
}

static void call_ask_alive(FILE *to, node *n, char **w) {
    pt_ref ref;
    uint32_t code = pt_ask_alive(desk_of(n, w), pid_of(w[1]), pid_of(w[2]), &ref);
    print_named(to, code, ref);
}

static void call_demonitor(FILE *to, node *n, char **w) {
    bool wrote = false;
    uint32_t code = pt_demonitor(desk_of(n, w), pid_of(w[1]), ref_of(w[2]), !strcmp(w[3], "true"), &wrote);
    print_bool(to, code, wrote);
}

static void call_receive(FILE *to, node *n, char **w) {
    pt_item item;
    uint32_t code = pt_receive(desk_of(n, w), pid_of(w[1]), pick_of(w + 2), &item);
    if (code == PT_OK) pt_print_item(to, item);
    else if (code == PT_NOTHING) fputs("none", to);
    else print_code(to, code);
}

/* ---- turns */

static void call_turn(FILE *to, node *n, char **w) {
    pt_turned turned = {0};
    uint32_t code = pt_turn(desk_of(n, w), number_of(w[2]), &turned);
    if (code == PT_OK) print_turned(to, turned);
    else print_code(to, code);
}

/* One turn of each desk: what they did together, and the first stop, with its desk in `where`. */
static pt_turned turn_each(node *n, uint32_t budget, size_t *where) {
    pt_turned sum = {0}, turned = {0};
    for (size_t k = 0; k < n->count; k++) {
        pt_turn(desk_at(n, k), budget, &turned);
        sum.posted += turned.posted;
        sum.handled += turned.handled;
        if (sum.stopped == PT_OK && turned.stopped != PT_OK) sum.stopped = turned.stopped, *where = k;
    }
    return sum;
}

static void call_turn_all(FILE *to, node *n, char **w) {
    size_t where = 0;
    print_turned(to, turn_each(n, number_of(w[1]), &where));
}

/* What one desk posts may be for a desk that had its turn before: so two rounds without a letter are needed. */
static void call_turn_until_still(FILE *to, node *n, char **w) {
    uint32_t budget = number_of(w[1]) > 0 ? number_of(w[1]) : 1;
    uint64_t handled = 0;
    size_t where = 0;
    for (int still = 0; still < 2;) {
        pt_turned round = turn_each(n, budget, &where);
        handled += round.handled;
        if (round.stopped != PT_OK) {
            fprintf(to, "handled %" PRIu64 ", then desk %zu ", handled, where);
            print_code(to, round.stopped);
            return;
        }
        still = round.handled > 0 ? 0 : still + 1;
    }
    fprintf(to, "handled %" PRIu64, handled);
}

/* ---- what a node says of itself */

static void call_clock(FILE *to, node *n, char **w) {
    uint64_t number = 0;
    pt_clock(desk_of(n, w), &number);
    fprintf(to, "%" PRIu64, number);
}

static void call_pending(FILE *to, node *n, char **w) {
    uint64_t number = 0;
    pt_pending(desk_of(n, w), &number);
    fprintf(to, "%" PRIu64, number);
}

static void call_vacant(FILE *to, node *n, char **w) {
    pt_pid pid;
    if (pt_vacant(desk_of(n, w), &pid) == PT_OK) pt_print_pid(to, pid);
    else fputs("none", to);
}

static void call_knows(FILE *to, node *n, char **w) {
    bool yes = false;
    uint32_t code = pt_knows(desk_of(n, w), pid_of(w[2]), &yes);
    print_bool(to, code, yes);
}

static void call_waiting(FILE *to, node *n, char **w) {
    size_t count = 0;
    pt_item item;
    if (pt_waiting(desk_of(n, w), pid_of(w[1]), &count) != PT_OK) {
        fputs("none", to);
        return;
    }
    for (size_t k = 0; k < count && pt_peek(desk_of(n, w), pid_of(w[1]), k, &item) == PT_OK; k++) {
        print_next(to, k);
        pt_print_item(to, item);
    }
    print_nothing(to, count);
}

static void call_journal(FILE *to, node *n, char **w) {
    size_t k = 0;
    for (pt_event event; pt_event_at(desk_of(n, w), k, &event) == PT_OK; k++) {
        print_next(to, k);
        pt_print_event(to, event);
    }
    print_nothing(to, k);
}

static void call_history(FILE *to, node *n, char **w) {
    pt_history history = history_of(n);
    size_t k = 0;
    (void)w;
    for (pt_event event; pt_history_at(&history, k, &event) == PT_OK; k++) {
        print_next(to, k);
        pt_print_event(to, event);
    }
    print_nothing(to, k);
    pt_history_give_up(&history);
}

/* The event with this stamp, if it is one of a desk and has it. */
static bool is_event(pt_event event, char **w) {
    return event.desk == number_of(w[1]) && event.stamp == strtoull(w[2], NULL, 10);
}

static void call_event(FILE *to, node *n, char **w) {
    pt_history history = PT_NO_HISTORY;
    pt_event event;
    bool found = false;
    if (!n->is_running) history = history_of(n);
    for (size_t k = 0; !found; k++) {
        uint32_t code = n->is_running ? pt_event_at(desk_of(n, w), k, &event) : pt_history_at(&history, k, &event);
        if (code != PT_OK) break;
        found = is_event(event, w);
    }
    if (found) pt_print_event(to, event);
    else fputs("none", to);
    if (!n->is_running) pt_history_give_up(&history);
}

static void call_events(FILE *to, node *n, char **w) {
    size_t sum = 0, count = 0;
    (void)w;
    if (n->is_running)
        for (size_t k = 0; k < n->count; k++, sum += count) pt_event_count(desk_at(n, k), &count);
    else {
        pt_history history = history_of(n);
        pt_history_count(&history, &sum);
        pt_history_give_up(&history);
    }
    fprintf(to, "%zu", sum);
}

static void call_alive(FILE *to, node *n, char **w) {
    bool yes = false;
    pt_account account;
    if (n->is_running) pt_alive(desk_of(n, w), pid_of(w[1]), &yes);
    else yes = pt_quiet_account(&n->quiet, pid_of(w[1]), &account) == PT_OK && !account.has_ended;
    print_bool(to, PT_OK, yes);
}

static void call_linked(FILE *to, node *n, char **w) {
    pt_ids ids;
    uint32_t code = n->is_running ? pt_linked(desk_of(n, w), pid_of(w[1]), pid_of(w[2]), &ids)
                                  : pt_quiet_linked(&n->quiet, pid_of(w[1]), pid_of(w[2]), &ids);
    print_ids_or_none(to, code, ids);
}

/* ---- gathered, settled and resumed nodes */

static void call_gather(FILE *to, node *n, char **w) {
    size_t left = 0;
    (void)w;
    uint32_t code = pt_gather(n->desks[n->place], n->count, &n->gathered);
    if (code != PT_OK) {
        print_code(to, code);
        return;
    }
    n->is_running = false;
    pt_history history = history_of(n);
    pt_history_left_count(&history, &left);
    pt_history_give_up(&history);
    fprintf(to, "left-over %zu", left);
}

static void call_left_over(FILE *to, node *n, char **w) {
    pt_history history = history_of(n);
    size_t k = 0;
    (void)w;
    for (pt_left_over left; pt_history_left_at(&history, k, &left) == PT_OK; k++) {
        print_next(to, k);
        pt_print_left_over(to, left);
    }
    print_nothing(to, k);
    pt_history_give_up(&history);
}

static void call_settle(FILE *to, node *n, char **w) {
    uint64_t handled = 0;
    (void)w;
    uint32_t code = pt_settle(&n->gathered, &n->quiet);
    if (code == PT_OK) code = pt_quiet_handled(&n->quiet, &handled);
    if (code == PT_OK) fprintf(to, "handled %" PRIu64, handled);
    else print_code(to, code);
}

static void call_pids(FILE *to, node *n, char **w) {
    size_t k = 0;
    (void)w;
    for (pt_pid pid; pt_quiet_pid_at(&n->quiet, k, &pid) == PT_OK; k++) {
        if (k > 0) fputc(' ', to);
        pt_print_pid(to, pid);
    }
    print_nothing(to, k);
}

static void call_account(FILE *to, node *n, char **w) {
    pt_account a;
    if (pt_quiet_account(&n->quiet, pid_of(w[1]), &a) != PT_OK) {
        fputs("none", to);
        return;
    }
    if (a.has_ended) fputs("ended ", to), pt_print_reason(to, a.ended);
    else fputs("alive", to);
    fprintf(to, " arrived %" PRIu64 " taken %" PRIu64 " waiting %" PRIu64, a.arrived, a.taken, a.waiting);
}

static void call_ended(FILE *to, node *n, char **w) {
    pt_account account;
    if (pt_quiet_account(&n->quiet, pid_of(w[1]), &account) == PT_OK && account.has_ended)
        pt_print_reason(to, account.ended);
    else fputs("none", to);
}

static void call_kept(FILE *to, node *n, char **w) {
    bool yes = false;
    uint32_t code = pt_quiet_kept(&n->quiet, pid_of(w[1]), ref_of(w[2]), &yes);
    print_bool(to, code, yes);
}

static void call_watching(FILE *to, node *n, char **w) {
    bool yes = false;
    uint32_t code = pt_quiet_watching(&n->quiet, pid_of(w[1]), ref_of(w[2]), &yes);
    print_bool(to, code, yes);
}

static void call_resume(FILE *to, node *n, char **w) {
    pt_desk *desks = n->desks[n->place];
    uint8_t known = 0;
    (void)w;
    /* one handle more than the node has desks is refused, and the node is as it was */
    if (pt_quiet_desks(&n->quiet, &known) != PT_OK || known != n->count
        || pt_resume(&n->quiet, desks, n->count + 1) != PT_BAD_DESKS)
        fputs("wrong ", to);
    uint32_t code = pt_resume(&n->quiet, desks, n->count);
    if (code == PT_OK && pt_resume(&n->quiet, desks, n->count) != PT_EMPTY) fputs("not empty ", to);
    n->is_running = code == PT_OK;
    print_code(to, code);
}

/* ---- crews */

static pt_crew *crew_of(node *n, char **w) { return &n->crews[w[1][0] == '<' ? pid_of(w[1]).shard : number_of(w[1])]; }

/* A code that the words name, or the one that a name stands for; `code:N` may mean nothing. */
static bool is_code(const char *word, uint32_t *code) {
    return word != NULL && sscanf(word, "code:%" SCNu32, code) == 1;
}

/* What a process does next, from the words up to a comma. */
static pt_next next_of(char **w) {
    static const char *const names[] = {"wait", "wait-until", "proceed", "stop", "running"};
    char *words[MOST_WORDS + 1] = {0};
    pt_next next = {0};
    for (size_t k = 0; w[k] != NULL && strcmp(w[k], ","); k++) words[k] = w[k];
    if (is_code(words[0], &next.code)) return next;
    while (next.code < PT_NEXT_RUNNING && strcmp(words[0], names[next.code])) next.code++;
    if (next.code == PT_NEXT_STOP && !is_code(words[1], &next.reason.code)) next.reason = reason_of(words[1]);
    char **pick = words + 1;
    if (next.code == PT_NEXT_WAIT_UNTIL) next.until = strtoull(words[1], NULL, 10), pick++;
    if (next.code <= PT_NEXT_WAIT_UNTIL && !is_code(pick[0], &next.pick.code)) next.pick = pick_of(pick);
    return next;
}

static void print_crew_next(FILE *to, pt_next next) {
    static const char *const names[] = {"wait", "wait-until", "proceed", "stop", "running"};
    fputs(names[next.code], to);
    if (next.code == PT_NEXT_WAIT_UNTIL) fprintf(to, " %" PRIu64, next.until);
    if (next.code <= PT_NEXT_WAIT_UNTIL) fputc(' ', to), pt_print_pick(to, next.pick);
    if (next.code == PT_NEXT_STOP) fputc(' ', to), pt_print_reason(to, next.reason);
}

static void print_job(FILE *to, pt_job job) {
    static const char *const names[] = {"start ", "proceed ", "item ", "timeout ", "exit "};
    fputs(names[job.code], to);
    pt_print_pid(to, job.pid);
    fprintf(to, " %" PRIu64, job.tag);
    if (job.code == PT_JOB_ITEM) fputc(' ', to), pt_print_item(to, job.item);
    if (job.has_supervisor) fputs(" under ", to), pt_print_pid(to, job.supervisor);
    if (job.again) fputs(" again", to);
    if (job.code == PT_JOB_EXIT) {
        fputc(' ', to), pt_print_reason(to, job.reason);
        fputc(' ', to), print_crew_next(to, job.was);
    }
}

static void print_size(FILE *to, uint32_t code, size_t size) {
    if (code == PT_OK) fprintf(to, "%zu", size);
    else print_code(to, code);
}

static void print_found(FILE *to, uint32_t code, uint64_t number) {
    if (code == PT_OK) fprintf(to, "%" PRIu64, number);
    else fputs("none", to);
}

static void call_crews_open(FILE *to, node *n, char **w) {
    uint32_t code = PT_OK;
    (void)w;
    for (size_t k = 0; k < n->count && code == PT_OK; k++) code = pt_crew_open(&n->crews[k]);
    print_code(to, code);
}

static void call_crew_spawn(FILE *to, node *n, char **w) {
    pt_pid pid;
    uint64_t tag = strtoull(w[2], NULL, 10);
    uint32_t code = pt_crew_spawn(crew_of(n, w), desk_of(n, w), tag, next_of(w + 3), &pid);
    print_spawned(to, code, pid);
}

static void call_crew_spawn_child(FILE *to, node *n, char **w) {
    pt_pid pid;
    uint64_t tag = strtoull(w[3], NULL, 10);
    bool linked = !strcmp(w[2], "true");
    uint32_t code = pt_crew_spawn_child(crew_of(n, w), desk_of(n, w), pid_of(w[1]), linked, tag, next_of(w + 4), &pid);
    print_spawned(to, code, pid);
}

/* The code that a word stands for among these. */
static uint32_t code_in(const char *word, const char *const *names) {
    uint32_t code = 0;
    if (is_code(word, &code)) return code;
    while (code < 2 && strcmp(word, names[code])) code++;
    return code;
}

static const char *const restarts[] = {"permanent", "transient", "temporary"};
static const char *const shutdowns[] = {"infinity", "after", "brutal_kill"};

/* A supervisor, of four words. */
static pt_supervisor_spec spec_of(char **w) {
    static const char *const strategies[] = {"one_for_one", "one_for_all", "rest_for_one"};
    pt_supervisor_spec spec = {.strategy = code_in(w[0], strategies), .most = number_of(w[1])};
    spec.span = strtoull(w[2], NULL, 10);
    spec.has_parent = w[3][0] == '<';
    if (spec.has_parent) spec.parent = pid_of(w[3]);
    return spec;
}

/* Its children, of three words behind a comma each; returns how many there are. */
static size_t children_of(char **w, pt_child_spec *children) {
    size_t count = 0;
    for (; w[0] != NULL; w += 4, count++) {
        pt_child_spec child = {.tag = strtoull(w[1], NULL, 10), .restart = code_in(w[2], restarts)};
        bool is_time = w[3][0] >= '0' && w[3][0] <= '9';
        child.shutdown = is_time ? PT_SHUTDOWN_AFTER : code_in(w[3], shutdowns);
        if (is_time) child.time = strtoull(w[3], NULL, 10);
        children[count] = child;
    }
    return count;
}

static void call_crew_supervisor(FILE *to, node *n, char **w) {
    pt_child_spec children[MOST_JOBS];
    pt_pid pid;
    size_t count = children_of(w + 7, children);
    uint64_t tag = strtoull(w[2], NULL, 10);
    uint32_t code = pt_crew_spawn_supervisor(crew_of(n, w), desk_of(n, w), tag, spec_of(w + 3), children, count, &pid);
    print_spawned(to, code, pid);
}

static void call_crew_supervise(FILE *to, node *n, char **w) {
    pt_child_spec children[MOST_JOBS];
    size_t count = children_of(w + 7, children);
    print_code(to, pt_crew_supervise(crew_of(n, w), pid_of(w[2]), spec_of(w + 3), children, count));
}

static void call_crew_children(FILE *to, node *n, char **w) {
    pt_child child;
    size_t count;
    if (pt_crew_children(crew_of(n, w), pid_of(w[2]), &count) != PT_OK) {
        fputs("none", to);
        return;
    }
    for (size_t k = 0; pt_crew_child(crew_of(n, w), pid_of(w[2]), k, &child) == PT_OK; k++, count--) {
        if (k > 0) fputs("; ", to);
        if (child.has_pid) pt_print_pid(to, child.pid);
        else fputc('-', to);
        fprintf(to, " %s ", restarts[child.restart]);
        if (child.shutdown == PT_SHUTDOWN_AFTER) fprintf(to, "%" PRIu64, child.time);
        else fputs(shutdowns[child.shutdown], to);
        if (!child.wanted) fputs(" unwanted", to);
    }
    if (count != 0) fputs(" wrong", to);
}

static void print_place(FILE *to, uint32_t code, size_t place) {
    if (code == PT_OK) fprintf(to, "place %zu", place);
    else print_code(to, code);
}

static void call_crew_start_child(FILE *to, node *n, char **w) {
    pt_child_spec children[MOST_JOBS];
    size_t place = 0, count = children_of(w + 3, children);
    uint32_t code = pt_crew_start_child(crew_of(n, w), pid_of(w[2]), children[0], &place);
    print_place(to, count == 1 ? code : PT_BAD_CODE, place);
}

static void call_crew_terminate_child(FILE *to, node *n, char **w) {
    print_code(to, pt_crew_terminate_child(crew_of(n, w), pid_of(w[2]), number_of(w[3])));
}

static void call_crew_restart_child(FILE *to, node *n, char **w) {
    print_code(to, pt_crew_restart_child(crew_of(n, w), pid_of(w[2]), number_of(w[3])));
}

static void call_crew_delete_child(FILE *to, node *n, char **w) {
    size_t place = 0;
    uint32_t code = pt_crew_delete_child(crew_of(n, w), pid_of(w[2]), number_of(w[3]), &place);
    print_place(to, code, place);
}

static void call_crew_count_children(FILE *to, node *n, char **w) {
    pt_child_counts counts;
    if (pt_crew_count_children(crew_of(n, w), pid_of(w[2]), &counts) != PT_OK) fputs("none", to);
    else fprintf(to, "%zu %zu %zu", counts.specs, counts.active, counts.restarting);
}

static void call_crew_gave_up(FILE *to, node *n, char **w) {
    pt_gave_up cause;
    if (pt_crew_gave_up(crew_of(n, w), pid_of(w[2]), &cause) != PT_OK) {
        fputs("none", to);
        return;
    }
    fprintf(to, "%" PRIu64 " %zu ", cause.tag, cause.place);
    pt_print_reason(to, cause.reason);
    fprintf(to, " %zu %" PRIu64 "%s", cause.restarts, cause.span, cause.timed ? " of time" : "");
}

static void call_crew_step(FILE *to, node *n, char **w) {
    pt_job jobs[MOST_JOBS];
    pt_turned turned;
    size_t count = 0;
    uint32_t code = pt_crew_step(crew_of(n, w), desk_of(n, w), number_of(w[2]), jobs, number_of(w[3]), &count, &turned);
    if (code != PT_OK) {
        print_code(to, code);
        return;
    }
    print_turned(to, turned);
    for (size_t k = 0; k < count; k++) fputs("; ", to), print_job(to, jobs[k]);
}

static void call_crew_answer(FILE *to, node *n, char **w) {
    pt_answer answers[MOST_JOBS];
    size_t count = 0, taken = 0;
    for (size_t k = 2; w[k] != NULL; k++)
        if (k == 2 || !strcmp(w[k - 1], ",")) answers[count++] = (pt_answer){pid_of(w[k]), next_of(w + k + 1)};
    uint32_t code = pt_crew_answer(crew_of(n, w), answers, count, &taken);
    fprintf(to, "taken %zu", taken);
    if (code != PT_OK) fputs(", then ", to), print_code(to, code);
}

static void call_crew_losses(FILE *to, node *n, char **w) {
    pt_desk *desk = desk_of(n, w);
    pt_loss loss;
    pt_item item;
    size_t count = 0;
    for (; pt_loss_at(desk, 0, &loss) == PT_OK; count++) {
        print_next(to, count);
        pt_print_pid(to, loss.pid);
        fputc(' ', to);
        if (loss.has_exited) pt_print_reason(to, loss.reason);
        else fputs("stray", to);
        for (size_t k = 0; pt_loss_item(desk, 0, k, &item) == PT_OK; k++)
            fputs(k > 0 ? ", " : " ", to), pt_print_item(to, item);
        if (pt_crew_note_loss(crew_of(n, w), desk, 0) != PT_OK || pt_next_loss(desk) != PT_OK) fputs(" wrong", to);
    }
    if (pt_crew_note_loss(crew_of(n, w), desk, 0) != PT_NOTHING || pt_next_loss(desk) != PT_NOTHING) fputs(" wrong", to);
    print_nothing(to, count);
}

static void call_keep_losses(FILE *to, node *n, char **w) {
    print_code(to, pt_keep_losses(desk_of(n, w), !strcmp(w[2], "true")));
}

static void call_crew_next(FILE *to, node *n, char **w) {
    pt_next next;
    if (pt_crew_next(crew_of(n, w), pid_of(w[2]), &next) == PT_OK) print_crew_next(to, next);
    else fputs("none", to);
}

static void call_crew_tag(FILE *to, node *n, char **w) {
    uint64_t tag = 0;
    uint32_t code = pt_crew_tag(crew_of(n, w), pid_of(w[2]), &tag);
    print_found(to, code, tag);
}

static void call_crew_next_time(FILE *to, node *n, char **w) {
    uint64_t time = 0;
    uint32_t code = pt_crew_next_time(crew_of(n, w), &time);
    print_found(to, code, time);
}

static void call_crew_set_time(FILE *to, node *n, char **w) {
    print_code(to, pt_crew_set_time(crew_of(n, w), strtoull(w[2], NULL, 10)));
}

static void call_crew_len(FILE *to, node *n, char **w) {
    size_t len = 0;
    uint32_t code = pt_crew_len(crew_of(n, w), &len);
    print_size(to, code, len);
}

static void call_crew_queued(FILE *to, node *n, char **w) {
    size_t queued = 0;
    uint32_t code = pt_crew_queued(crew_of(n, w), &queued);
    print_size(to, code, queued);
}

static void call_crew_idle(FILE *to, node *n, char **w) {
    bool idle = false;
    uint32_t code = pt_crew_is_idle(crew_of(n, w), desk_of(n, w), &idle);
    print_bool(to, code, idle);
}

static void call_crew_refused(FILE *to, node *n, char **w) {
    bool refused = false;
    uint32_t code = pt_crew_refused(crew_of(n, w), &refused);
    print_bool(to, code, refused);
}

static void call_crew_begin_again(FILE *to, node *n, char **w) { print_code(to, pt_crew_begin_again(crew_of(n, w))); }

static void call_crews_go_on(FILE *to, node *n, char **w) {
    pt_history history = PT_NO_HISTORY;
    size_t events = 0;
    (void)w;
    uint32_t code = pt_crews_go_on(
        n->crews, n->count, n->desks[n->place], n->count, &n->gathered, &n->quiet, &history);
    n->is_running = n->desks[n->place][0].at != NULL;
    if (code != PT_OK) {
        print_code(to, code);
        return;
    }
    pt_history_count(&history, &events);
    fprintf(to, "events %zu", events);
    if (pt_history_give_up(&history) != PT_OK || n->gathered.at || n->quiet.at) fputs(" wrong", to);
}

/* ---- the table */

typedef void call(FILE *, node *, char **);

static const struct { const char *name; call *make; } calls[] = {
    {"open", call_open}, {"spawn", call_spawn}, {"spawn_child", call_spawn_child}, {"send", call_send},
    {"exit_signal", call_exit_signal}, {"link", call_link}, {"unlink", call_unlink}, {"trap", call_trap},
    {"exit", call_exit}, {"monitor", call_monitor}, {"demonitor", call_demonitor}, {"ask_alive", call_ask_alive},
    {"receive", call_receive}, {"turn", call_turn}, {"turn_all", call_turn_all},
    {"turn_until_still", call_turn_until_still}, {"clock", call_clock}, {"pending", call_pending},
    {"journal", call_journal}, {"event", call_event}, {"events", call_events}, {"vacant", call_vacant},
    {"alive", call_alive}, {"knows", call_knows}, {"waiting", call_waiting}, {"linked", call_linked},
    {"watching", call_watching}, {"kept", call_kept}, {"gather", call_gather}, {"left_over", call_left_over},
    {"history", call_history}, {"settle", call_settle}, {"pids", call_pids}, {"account", call_account},
    {"ended", call_ended}, {"resume", call_resume}, {"keep_losses", call_keep_losses}, {"crews_open", call_crews_open},
    {"crew_spawn", call_crew_spawn}, {"crew_spawn_child", call_crew_spawn_child}, {"crew_step", call_crew_step},
    {"crew_supervisor", call_crew_supervisor}, {"crew_supervise", call_crew_supervise},
    {"crew_children", call_crew_children}, {"crew_start_child", call_crew_start_child},
    {"crew_terminate_child", call_crew_terminate_child}, {"crew_restart_child", call_crew_restart_child},
    {"crew_delete_child", call_crew_delete_child}, {"crew_count_children", call_crew_count_children},
    {"crew_gave_up", call_crew_gave_up},
    {"crew_answer", call_crew_answer}, {"crew_losses", call_crew_losses}, {"crew_next", call_crew_next},
    {"crew_tag", call_crew_tag}, {"crew_next_time", call_crew_next_time}, {"crew_set_time", call_crew_set_time},
    {"crew_len", call_crew_len}, {"crew_queued", call_crew_queued}, {"crew_idle", call_crew_idle},
    {"crew_refused", call_crew_refused}, {"crew_begin_again", call_crew_begin_again},
    {"crews_go_on", call_crews_go_on},
};

/* Makes the call that the words are, and writes its answer to `got`, of MOST_BYTES. */
static void make(char *got, node *n, char **words) {
    FILE *to = fmemopen(got, MOST_BYTES, "w");
    bool found = false;
    for (size_t k = 0; k < sizeof calls / sizeof *calls && !found; k++)
        if (!strcmp(words[0], calls[k].name)) calls[k].make(to, n, words), found = true;
    if (!found) fprintf(to, "no call %s", words[0]);
    fputc(0, to);
    fclose(to);
}

int main(int argc, char **argv) {
    static char line[MOST_BYTES], got[MOST_BYTES], row[256];
    static node n;
    FILE *table = argc > 1 ? fopen(argv[1], "r") : stdin;
    int wrong = 0, steps = 0, answers = 0, rows = 0;
    while (table && fgets(line, sizeof line, table)) {
        line[strcspn(line, "\n")] = 0;
        if (!strncmp(line, "row ", 4)) {
            wrong += close_node(&n, row);
            snprintf(row, sizeof row, "%.*s", (int)sizeof row - 1, line + 4);
            rows++;
            continue;
        }
        char *answer = strstr(line, " = "), *words[MOST_WORDS + 1] = {0};
        int k = 0;
        if (answer) *answer = 0;
        for (char *word = strtok(line, " "); word && k < MOST_WORDS; word = strtok(NULL, " ")) words[k++] = word;
        if (k == 0) continue;
        make(got, &n, words);
        steps++;
        if (!answer) continue;
        answers++;
        if (strcmp(got, answer + 3)) {
            printf("%s: %s: %s where %s is wanted\n", row, words[0], got, answer + 3);
            wrong++;
        }
    }
    wrong += close_node(&n, row);
    if (table && table != stdin) fclose(table);
    printf("c: %d rows, %d steps, %d answers compared, %d wrong\n", rows, steps, answers, wrong);
    return wrong != 0 || answers == 0;
}
