/* Compares what the library says of itself with pundewo.h: its version, sizes, where the fields are, and codes. */
#include <stdio.h>
#include <string.h>

#include "pundewo.h"

static int wrong = 0;
static uint64_t next;

static void is(const char *what, uint64_t got, uint64_t want) {
    if (got != want) {
        printf("%s: %llu in the library, ", what, (unsigned long long)got);
        printf("%llu in the header\n", (unsigned long long)want);
        wrong++;
    }
}

/* The next field of a sample: its number, or a bool that is true. */
#define NEXT(field) is(#field, (uint64_t)(field), ++next)
#define TRUE(field) (++next, is(#field, (field), 1))

static void pid(pt_pid p) { NEXT(p.shard); NEXT(p.slot); NEXT(p.version); }
static void ref(pt_ref m) { NEXT(m.desk); NEXT(m.number); }
static void ids(pt_ids i) { ref(i.one); TRUE(i.has_two); ref(i.two); }
static void reason(pt_reason r) { NEXT(r.code); NEXT(r.number); }
static void body(pt_body b) { NEXT(b.kind); NEXT(b.num); TRUE(b.has_who); pid(b.who); }
static void item(pt_item i) {
    NEXT(i.code); TRUE(i.alive); pid(i.pid); ref(i.reference); reason(i.reason); body(i.body);
}
static void pick(pt_pick k) { NEXT(k.code); NEXT(k.kind); pid(k.pid); ref(k.reference); }
static void sent(pt_signal x) {
    NEXT(x.code); TRUE(x.alive); reason(x.reason); ref(x.reference); ids(x.ids); body(x.body);
}

static void does(pt_next n) { NEXT(n.code); reason(n.reason); NEXT(n.until); pick(n.pick); }

/* A sample is written between two guards, which stay as they are. */
#define SAMPLE(type, value, write)                                                                                   \
    struct { unsigned char before[16]; type value; unsigned char after[16]; } guarded_##value;                     \
    memset(&guarded_##value, 0xA5, sizeof guarded_##value);                                                        \
    write(&guarded_##value.value);                                                                                 \
    for (int k = 0; k < 16; k++) {                                                                                 \
        is(#type " before", guarded_##value.before[k], 0xA5);                                                      \
        is(#type " after", guarded_##value.after[k], 0xA5);                                                        \
    }                                                                                                              \
    type value = guarded_##value.value;                                                                            \
    next = 0

static void samples(void) {
    SAMPLE(pt_event, e, pt_about_event);
    NEXT(e.stamp); NEXT(e.desk); TRUE(e.has_peer); TRUE(e.has_link); TRUE(e.on); NEXT(e.code);
    pid(e.pid); pid(e.peer); ref(e.link); reason(e.reason); pick(e.pick); item(e.item); sent(e.signal);
    SAMPLE(pt_left_over, l, pt_about_left_over);
    NEXT(l.from_desk); NEXT(l.to_desk); pid(l.from); pid(l.to); NEXT(l.stamp); sent(l.signal);
    SAMPLE(pt_turned, t, pt_about_turned);
    NEXT(t.posted); NEXT(t.handled); NEXT(t.stopped);
    SAMPLE(pt_loss, lost, pt_about_loss);
    TRUE(lost.has_exited); pid(lost.pid); reason(lost.reason); NEXT(lost.items);
    SAMPLE(pt_account, a, pt_about_account);
    TRUE(a.has_ended); reason(a.ended); NEXT(a.arrived); NEXT(a.taken); NEXT(a.waiting);
    SAMPLE(pt_fired, f, pt_about_fired);
    NEXT(f.timer.at); NEXT(f.timer.number); NEXT(f.body);
    SAMPLE(pt_holder, h, pt_about_holder);
    pid(h.pid); ref(h.monitor);
    SAMPLE(pt_config, c, pt_about_config);
    NEXT(c.slots); NEXT(c.top_version); NEXT(c.lane); NEXT(c.start);
    SAMPLE(pt_job, j, pt_about_job);
    NEXT(j.code); pid(j.pid); NEXT(j.tag); item(j.item); reason(j.reason); does(j.was);
    TRUE(j.has_supervisor); TRUE(j.again); pid(j.supervisor);
    SAMPLE(pt_answer, b, pt_about_answer);
    pid(b.pid); does(b.next);
}

/* The structs of calls, and a message from outside. */
static void asking(void) {
    size_t size;
    pt_post post;
    SAMPLE(pt_asking_about, s, pt_about_asking);
    pid(s.call.client); pid(s.call.server); ref(s.call.monitor);
    TRUE(s.call.has_deadline); TRUE(s.call.waits); TRUE(s.call.left_open);
    NEXT(s.call.deadline);
    next = 0;
    pid(s.request.from); NEXT(s.request.asks); NEXT(s.request.number);
    next = 0;
    NEXT(s.heard.code); NEXT(s.heard.answer); reason(s.heard.reason);
    is("pt_call", s.call_size, sizeof(pt_call));
    is("pt_request", s.request_size, sizeof(pt_request));
    is("pt_heard", s.heard_size, sizeof(pt_heard));
    pt_about_post(&post, &size);
    next = 0;
    pid(post.to); body(post.body);
    is("pt_post", size, sizeof(pt_post));
}

/* The structs and the codes of supervisors. */
static void supervisors(void) {
    pt_supervisor_codes told;
    SAMPLE(pt_supervisor_spec, s, pt_about_supervisor_spec);
    NEXT(s.strategy); TRUE(s.timed); TRUE(s.has_parent); pid(s.parent); NEXT(s.most); NEXT(s.span);
    SAMPLE(pt_child_spec, c, pt_about_child_spec);
    NEXT(c.tag); NEXT(c.restart); NEXT(c.shutdown); NEXT(c.time); TRUE(c.elsewhere);
    SAMPLE(pt_child, d, pt_about_child);
    TRUE(d.has_pid); TRUE(d.wanted); pid(d.pid); NEXT(d.restart); NEXT(d.shutdown); NEXT(d.time);
    SAMPLE(pt_child_counts, k, pt_about_child_counts);
    NEXT(k.specs); NEXT(k.active); NEXT(k.restarting);
    SAMPLE(pt_gave_up, g, pt_about_gave_up);
    NEXT(g.tag); NEXT(g.place); reason(g.reason); NEXT(g.restarts); NEXT(g.span); TRUE(g.timed);
    pt_about_supervisors(&told);
    const uint64_t written[] = {told.one_for_one, told.one_for_all, told.rest_for_one, told.permanent, told.transient,
        told.temporary, told.infinity, told.after, told.brutal_kill, told.supervisor_spec, told.child_spec, told.child,
        told.child_running, told.child_restarting, told.child_present, told.child_counts, told.gave_up};
    const uint64_t all[] = {PT_ONE_FOR_ONE, PT_ONE_FOR_ALL, PT_REST_FOR_ONE, PT_PERMANENT, PT_TRANSIENT, PT_TEMPORARY,
        PT_SHUTDOWN_INFINITY, PT_SHUTDOWN_AFTER, PT_BRUTAL_KILL, sizeof(pt_supervisor_spec), sizeof(pt_child_spec),
        sizeof(pt_child), PT_CHILD_RUNNING, PT_CHILD_RESTARTING, PT_CHILD_PRESENT, sizeof(pt_child_counts),
        sizeof(pt_gave_up)};
    for (size_t k = 0; k < sizeof all / sizeof *all; k++) is("a code or a size of supervisors", written[k], all[k]);
}

static void sizes(void) {
    pt_sizes s;
    pt_about_sizes(&s);
    is("pt_pid", s.pid, sizeof(pt_pid));
    is("pt_ref", s.reference, sizeof(pt_ref));
    is("pt_ids", s.ids, sizeof(pt_ids));
    is("pt_reason", s.reason, sizeof(pt_reason));
    is("pt_body", s.body, sizeof(pt_body));
    is("pt_item", s.item, sizeof(pt_item));
    is("pt_pick", s.pick, sizeof(pt_pick));
    is("pt_signal", s.signal, sizeof(pt_signal));
    is("pt_event", s.event, sizeof(pt_event));
    is("pt_left_over", s.left_over, sizeof(pt_left_over));
    is("pt_turned", s.turned, sizeof(pt_turned));
    is("pt_account", s.account, sizeof(pt_account));
    is("pt_loss", s.loss, sizeof(pt_loss));
    is("pt_config", s.config, sizeof(pt_config));
    is("pt_next", s.next, sizeof(pt_next));
    is("pt_job", s.job, sizeof(pt_job));
    is("pt_answer", s.answer, sizeof(pt_answer));
    is("pt_timer", s.timer, sizeof(pt_timer));
    is("pt_fired", s.fired, sizeof(pt_fired));
    is("pt_name", s.name, sizeof(pt_name));
    is("pt_holder", s.holder, sizeof(pt_holder));
    is("pt_codes", s.codes, sizeof(pt_codes));
}

static void codes(void) {
    static const uint32_t all[] = {
        PT_OK, PT_FULL, PT_MEMORY, PT_WORN, PT_GONE, PT_MYSELF, PT_NOPROC, PT_UNKNOWN, PT_NOTHING, PT_EMPTY, PT_FILLED,
        PT_BAD_DESKS, PT_BAD_SLOTS, PT_BAD_TOP_VERSION, PT_BAD_LANE, PT_BAD_START, PT_BAD_CODE, PT_NOT_RUNNING,
        PT_WRONG_DESK, PT_BAD_NAME, PT_TAKEN, PT_HAS_NAME, PT_BAD_PLACES, PT_UNLISTED,
        PT_NORMAL, PT_KILL, PT_KILLED, PT_NO_PROCESS, PT_SHUTDOWN, PT_OTHER,
        PT_ITEM_USER, PT_ITEM_EXIT, PT_ITEM_DOWN, PT_ITEM_ALIVE,
        PT_PICK_KIND, PT_PICK_FROM, PT_PICK_EXIT_OF, PT_PICK_DOWN_OF, PT_PICK_ALIVE_OF, PT_PICK_ANY,
        PT_SIGNAL_MESSAGE, PT_SIGNAL_LINK, PT_SIGNAL_UNLINK, PT_SIGNAL_EXIT, PT_SIGNAL_LINK_EXIT, PT_SIGNAL_MONITOR,
        PT_SIGNAL_DEMONITOR, PT_SIGNAL_DOWN, PT_SIGNAL_ALIVE_ASK, PT_SIGNAL_ALIVE_SAY,
        PT_EVENT_BORN, PT_EVENT_SAID, PT_EVENT_CAME, PT_EVENT_TOOK, PT_EVENT_FLAG, PT_EVENT_LEFT, PT_EVENT_REFUSED,
        PT_NEXT_WAIT, PT_NEXT_WAIT_UNTIL, PT_NEXT_PROCEED, PT_NEXT_STOP, PT_NEXT_RUNNING,
        PT_JOB_START, PT_JOB_PROCEED, PT_JOB_ITEM, PT_JOB_TIMEOUT, PT_JOB_EXIT,
    };
    pt_codes told;
    uint32_t written[sizeof told / sizeof(uint32_t)];
    pt_about_codes(&told);
    memcpy(written, &told, sizeof told);
    is("how many codes", sizeof written, sizeof all);
    for (size_t k = 0; k < sizeof all / sizeof *all && sizeof written == sizeof all; k++)
        is("a code", written[k], all[k]);
}

/* The text of the library begins with the version of the header. */
static void version(void) {
    static const char begins[] = "pundewo " PUNDEWO_VERSION ", ";
    char parts[32];
    snprintf(parts, sizeof parts, "%d.%d.%d", PUNDEWO_VERSION_MAJOR, PUNDEWO_VERSION_MINOR, PUNDEWO_VERSION_PATCH);
    if (strncmp(pundewo_build, begins, sizeof begins - 1) != 0 || strcmp(parts, PUNDEWO_VERSION) != 0) {
        printf("version: '%s' in the library, %s (%s) in the header\n", pundewo_build, PUNDEWO_VERSION, parts);
        wrong++;
    }
    is("the number of the version", pt_version(), PUNDEWO_VERSION_NUMBER);
    is("the parts of the number", PUNDEWO_VERSION_MAJOR * 10000 + PUNDEWO_VERSION_MINOR * 100 + PUNDEWO_VERSION_PATCH,
        PUNDEWO_VERSION_NUMBER);
    is("whether the version fits", pt_version_fits(), 1);
}

int main(void) {
    version();
    samples();
    asking();
    sizes();
    codes();
    supervisors();
    printf("c: about, %d wrong\n", wrong);
    return wrong != 0;
}
