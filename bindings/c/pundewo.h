/* The process table of Pundewo, for C and C++.
 *
 * A node is a set of desks. Each desk has processes, keeps a journal of what happened on it, and belongs to one
 * thread at a time. docs/EMBEDDING.md says which call comes when. docs/API.md and the Erlang manual say what the
 * calls mean.
 *
 * Each call returns a code of `enum pt_code`. If it returns anything but PT_OK, it has changed nothing and written no
 * output. One exception holds for all calls: a call that returns PT_NOPROC is noted in the journal. Others stand with
 * their call. All of this is proved for callers that follow these rules:
 *
 *  - A handle begins empty, by PT_DESK_INIT, PT_NO_DESK or its like. Only the functions below change it, and it is
 *    never copied. A call on an empty handle returns PT_EMPTY.
 *  - A handle is in one call at a time. It may move to another thread (the library proves that its type is `Send`).
 *    Order that by a lock, a thread's start or join, a channel, or a sequentially consistent atomic.
 *  - Every pointer is valid and aligned, what it points to is initialized, and no two pointers of one call overlap.
 *  - A bool is 0 or 1. A code in a struct that you pass in may have any value: PT_BAD_CODE is returned for one that
 *    means nothing.
 *  - A crew is used with one desk: that of its first call. After pt_crews_go_on or its like it is used
 *    with the desk of the same number in the node that was resumed. PT_WRONG_DESK is returned for a desk of another
 *    number. A desk of the same number in another node is not detected.
 *  - pt_gather and pt_crews_go_on get the desks of one pt_open or of one resumption. They detect whether these are
 *    all, and in order, but not whether they are of one node.
 *  - malloc, realloc and free belong to one allocator, with malloc's usual alignment. No call is made from a signal
 *    handler, or in the forked child of a process with threads.
 *
 * No function takes a handle by `const`, even if it only reads: a call empties the handle while it uses the value,
 * and puts the value back. So two threads must not read one handle at the same time either.
 *
 * The parts between marks such as [abi: values] are written by bindings/abi.py, from the library's sources.
 */
#ifndef PUNDEWO_H
#define PUNDEWO_H

#include <stdbool.h>
#include <stddef.h>
#include <stdint.h>

#ifdef __cplusplus
extern "C" {
#endif

/* [abi: version] */
/* The version of this header: as a text, in its parts, and as the number that pt_version() returns of the library
 * (10203 is 1.2.3). */
#define PUNDEWO_VERSION "0.1.0"
#define PUNDEWO_VERSION_MAJOR 0
#define PUNDEWO_VERSION_MINOR 1
#define PUNDEWO_VERSION_PATCH 0
#define PUNDEWO_VERSION_NUMBER 100
/* [abi: end] */

/* What the library is: "pundewo 0.1.0, proved: SHA256", with the checksum of the archive that the proofs are of, which is in
 * docs/proved-files.txt, or "pundewo 0.1.0, not proved: for trying out". */
extern const char pundewo_build[];

/* The version of the library, as PUNDEWO_VERSION_NUMBER is that of this header. It and `pundewo_build` are tested, not
 * proved. (pt_version() cannot fail.) */
unsigned pt_version(void);

/* Whether the library has the structs and calls of this header: it is of the same major and minor version, and no older. A
 * program that links the shared library asks this before it makes a call. */
static inline bool pt_version_fits(void) {
    return pt_version() / 100 == PUNDEWO_VERSION_NUMBER / 100 && pt_version() >= PUNDEWO_VERSION_NUMBER;
}

/* A word for a code of `enum pt_code`, for messages to people: "Full", "NoProc", "bad name". It returns "?" for a number that
 * is no code. The text is the library's own and is never freed. (tested, not proved) */
const char *pt_code_name(uint32_t code);

/* [abi: handles] */
/* Handles: each is one pointer, and null if it is empty. */
typedef struct pt_desk { void *at; } pt_desk;
typedef struct pt_gathered { void *at; } pt_gathered;
typedef struct pt_quiet { void *at; } pt_quiet;
typedef struct pt_history { void *at; } pt_history;
typedef struct pt_crew { void *at; } pt_crew;
typedef struct pt_timers { void *at; } pt_timers;
typedef struct pt_names { void *at; } pt_names;
typedef struct pt_groups { void *at; } pt_groups;
typedef struct pt_door { void *at; } pt_door;
typedef struct pt_way_in { void *at; } pt_way_in;

/* An empty handle as an initializer, also of a static: `static pt_desk desk = PT_DESK_INIT;`. */
#define PT_DESK_INIT {NULL}
#define PT_GATHERED_INIT {NULL}
#define PT_QUIET_INIT {NULL}
#define PT_HISTORY_INIT {NULL}
#define PT_CREW_INIT {NULL}
#define PT_TIMERS_INIT {NULL}
#define PT_NAMES_INIT {NULL}
#define PT_GROUPS_INIT {NULL}
#define PT_DOOR_INIT {NULL}
#define PT_WAY_IN_INIT {NULL}

/* An empty handle as a value: `desk = PT_NO_DESK;`. */
#ifdef __cplusplus
#define PT_NO_DESK pt_desk{nullptr}
#define PT_NO_GATHERED pt_gathered{nullptr}
#define PT_NO_QUIET pt_quiet{nullptr}
#define PT_NO_HISTORY pt_history{nullptr}
#define PT_NO_CREW pt_crew{nullptr}
#define PT_NO_TIMERS pt_timers{nullptr}
#define PT_NO_NAMES pt_names{nullptr}
#define PT_NO_GROUPS pt_groups{nullptr}
#define PT_NO_DOOR pt_door{nullptr}
#define PT_NO_WAY_IN pt_way_in{nullptr}
#else
#define PT_NO_DESK ((pt_desk){0})
#define PT_NO_GATHERED ((pt_gathered){0})
#define PT_NO_QUIET ((pt_quiet){0})
#define PT_NO_HISTORY ((pt_history){0})
#define PT_NO_CREW ((pt_crew){0})
#define PT_NO_TIMERS ((pt_timers){0})
#define PT_NO_NAMES ((pt_names){0})
#define PT_NO_GROUPS ((pt_groups){0})
#define PT_NO_DOOR ((pt_door){0})
#define PT_NO_WAY_IN ((pt_way_in){0})
#endif
/* [abi: end] */

/* [abi: values] */
/* What a call returns. */
enum pt_code {
    PT_OK = 0,                /* the call succeeded */
    PT_FULL = 1,              /* no slot is free, no place of a door, or no further place in a group */
    PT_MEMORY = 2,            /* malloc or realloc failed; the call may be made again */
    PT_WORN = 3,              /* the clock is at its limit, 2^62 */
    PT_GONE = 4,              /* the acting process is not alive on this desk, or the way in of a door was given up */
    PT_MYSELF = 5,            /* a process cannot monitor itself */
    PT_NOPROC = 6,            /* the other process has exited */
    PT_UNKNOWN = 7,           /* the desk cannot have had the other process */
    PT_NOTHING = 8,           /* there is nothing of what was asked for */
    PT_EMPTY = 9,             /* a handle is empty */
    PT_FILLED = 10,           /* a handle that must be empty is not */
    PT_BAD_DESKS = 11,        /* the first setting that is out of its range: 1 to 64 desks */
    PT_BAD_SLOTS = 12,        /* 1 to 65,536 slots */
    PT_BAD_TOP_VERSION = 13,  /* a greatest version of at least 1 */
    PT_BAD_LANE = 14,         /* 1 to 65,536 letters */
    PT_BAD_START = 15,        /* a start of at most 2^62 */
    PT_BAD_CODE = 16,         /* a code in a struct that was passed in means nothing */
    PT_NOT_RUNNING = 17,      /* an answer for a process that is not running */
    PT_WRONG_DESK = 18,       /* the crew belongs to a desk of another number */
    PT_BAD_NAME = 19,         /* the bytes are not a name */
    PT_TAKEN = 20,            /* another process has the name */
    PT_HAS_NAME = 21,         /* the process has a name already */
    PT_BAD_PLACES = 22,       /* a way in needs at least one place */
    PT_CHILD_RUNNING = 23,    /* the child is running, by all that its supervisor has heard */
    PT_CHILD_RESTARTING = 24, /* the child is not running, and its supervisor is to start it */
    PT_CHILD_PRESENT = 25,    /* the supervisor has a child with this tag, which is not running */
    PT_UNLISTED = 26          /* the settled node has no list of its pids */
};

/* The name of a process. No two processes have the same. */
typedef struct pt_pid {
    uint8_t shard;    /* the desk on which it is for all its life */
    uint32_t slot;    /* its slot on that desk */
    uint32_t version; /* how often the slot was used, this time included */
} pt_pid;

/* The reference of a monitor or of a question, or the id of a link: the desk and the stamp of the event that made
 * it. */
typedef struct pt_ref { uint8_t desk; uint64_t number; } pt_ref;

/* The ids under which two processes are linked. There are two if both sides made the link at the same time. */
typedef struct pt_ids { pt_ref one; bool has_two; pt_ref two; } pt_ids;

/* Why a process exits. */
enum pt_reason_code { PT_NORMAL = 0, PT_KILL = 1, PT_KILLED = 2, PT_NO_PROCESS = 3, PT_SHUTDOWN = 4, PT_OTHER = 5 };

/* An exit reason. `number` counts for PT_OTHER only. A call that gets any other code returns PT_BAD_CODE. */
typedef struct pt_reason { uint32_t code; uint32_t number; } pt_reason;

/* What a message holds. Keep a payload yourself, under `num`; docs/EMBEDDING.md says when it may be freed. */
typedef struct pt_body {
    uint32_t kind; /* a number of your own */
    int64_t num;   /* a number of your own */
    bool has_who;  /* whether the message names a process */
    pt_pid who;    /* that process */
} pt_body;

/* What an item is. */
enum pt_item_code {
    PT_ITEM_USER = 0, /* a message: its sender `pid`, and its `body` */
    PT_ITEM_EXIT = 1, /* a trapped exit signal: the process `pid`, and the `reason` */
    PT_ITEM_DOWN = 2, /* the DOWN of the monitor `reference`: the process `pid`, and the `reason` of its exit */
    PT_ITEM_ALIVE = 3 /* the answer to the question `reference`: whether `pid` is `alive` */
};

/* An item of a mailbox. */
typedef struct pt_item {
    uint32_t code;
    bool alive;
    pt_pid pid;
    pt_ref reference;
    pt_reason reason;
    pt_body body;
} pt_item;

/* Which items a receive takes. */
enum pt_pick_code {
    PT_PICK_KIND = 0,     /* messages of `kind` */
    PT_PICK_FROM = 1,     /* messages from `pid` */
    PT_PICK_EXIT_OF = 2,  /* trapped exit signals from `pid` */
    PT_PICK_DOWN_OF = 3,  /* the DOWN of the monitor `reference` */
    PT_PICK_ALIVE_OF = 4, /* the answer to the question `reference` */
    PT_PICK_ANY = 5       /* all items */
};

/* A pick. A call that gets any other code returns PT_BAD_CODE. */
typedef struct pt_pick { uint32_t code; uint32_t kind; pt_pid pid; pt_ref reference; } pt_pick;

/* What a signal is. */
enum pt_signal_code {
    PT_SIGNAL_MESSAGE = 0,   /* `body` */
    PT_SIGNAL_LINK = 1,      /* `ids.one` */
    PT_SIGNAL_UNLINK = 2,    /* `ids` */
    PT_SIGNAL_EXIT = 3,      /* `reason`; no link carries it */
    PT_SIGNAL_LINK_EXIT = 4, /* `ids` of the link that carries it, and `reason` */
    PT_SIGNAL_MONITOR = 5,   /* `reference` */
    PT_SIGNAL_DEMONITOR = 6, /* `reference` */
    PT_SIGNAL_DOWN = 7,      /* `reference`, `reason` */
    PT_SIGNAL_ALIVE_ASK = 8, /* `reference` */
    PT_SIGNAL_ALIVE_SAY = 9  /* `reference`, `alive` */
};

/* A signal: what one process sends another. A field that its code does not name is zero. */
typedef struct pt_signal {
    uint32_t code;
    bool alive;
    pt_reason reason;
    pt_ref reference;
    pt_ids ids;
    pt_body body;
} pt_signal;

/* What an event is. */
enum pt_event_code {
    PT_EVENT_BORN = 0,   /* `pid` was spawned, by `peer` if `has_peer`, with the link `link` if `has_link` */
    PT_EVENT_SAID = 1,   /* `pid` sent `signal` to `peer` */
    PT_EVENT_CAME = 2,   /* `pid` got `signal` from `peer` */
    PT_EVENT_TOOK = 3,   /* `pid` took `item` out of its mailbox by `pick` */
    PT_EVENT_FLAG = 4,   /* `pid` set its trap_exit flag to `on` */
    PT_EVENT_LEFT = 5,   /* `pid` exited by its own call, with `reason` */
    PT_EVENT_REFUSED = 6 /* a call of `pid` failed with PT_NOPROC, since `peer` had exited */
};

/* An event of a journal or a history: what happened to the process `pid`. */
typedef struct pt_event {
    uint64_t stamp;
    uint8_t desk;
    bool has_peer;
    bool has_link;
    bool on;
    uint32_t code;
    pt_pid pid;
    pt_pid peer;
    pt_ref link;
    pt_reason reason;
    pt_pick pick;
    pt_item item;
    pt_signal signal;
} pt_event;

/* A letter that was sent and had not arrived when the desks were gathered. */
typedef struct pt_left_over {
    uint8_t from_desk;
    uint8_t to_desk;
    pt_pid from;
    pt_pid to;
    uint64_t stamp;
    pt_signal signal;
} pt_left_over;

/* What a turn did. */
typedef struct pt_turned {
    uint64_t posted;  /* how many letters went into lanes */
    uint64_t handled; /* how many letters were handled */
    uint32_t stopped; /* PT_OK; or PT_MEMORY or PT_WORN if the turn stopped at a letter, which stays */
} pt_turned;

/* What became of a process. */
typedef struct pt_account {
    bool has_ended;   /* whether it has exited */
    pt_reason ended;  /* its exit reason */
    uint64_t arrived; /* how many items its mailbox got */
    uint64_t taken;   /* how many of them it took */
    uint64_t waiting; /* how many of them wait, or were left as it exited */
} pt_account;

/* The settings of a node. Their ranges are with PT_BAD_DESKS and the codes after it. */
typedef struct pt_config {
    uint32_t slots;       /* how many slots a desk has, so how many of its processes are alive at once */
    uint32_t top_version; /* the greatest version of a slot */
    uint32_t lane;        /* how many letters a lane holds */
    uint64_t start;       /* where the clocks start */
} pt_config;

/* The settings that a node has if nothing else is said, as an initializer: `pt_config config = PT_CONFIG_DEFAULT;`. */
#define PT_CONFIG_DEFAULT {1024, UINT32_MAX, 64, 0}

/* What a desk lost by one event. Either the process exited, and `items` items were in its mailbox, perhaps none. Or
 * it was not alive as a message arrived; `reason` says nothing then. */
typedef struct pt_loss { bool has_exited; pt_pid pid; pt_reason reason; size_t items; } pt_loss;

/* What a process of a crew does next. */
enum pt_next_code {
    PT_NEXT_WAIT = 0,       /* it waits for an item that `pick` takes */
    PT_NEXT_WAIT_UNTIL = 1, /* the same, until the time `until` at the latest (pt_crew_set_time) */
    PT_NEXT_PROCEED = 2,    /* its handler runs as soon as its turn comes (PT_JOB_START, PT_JOB_PROCEED) */
    PT_NEXT_STOP = 3,       /* it exits with `reason` (PT_JOB_EXIT) */
    PT_NEXT_RUNNING = 4     /* it got a job, and gets none until it is answered (pt_crew_answer) */
};

/* What a process does next. A call that gets any other code returns PT_BAD_CODE. So it does if the code of the pick
 * or of the reason counts and means nothing. */
typedef struct pt_next { uint32_t code; pt_reason reason; uint64_t until; pt_pick pick; } pt_next;

/* What the handler of a process is told. */
enum pt_job_code {
    PT_JOB_START = 0,   /* it begins: it was to proceed, and has had no job before */
    PT_JOB_PROCEED = 1, /* it proceeds, as it was answered */
    PT_JOB_ITEM = 2,    /* it gets `item`, for which it waited; the item is out of its mailbox */
    PT_JOB_TIMEOUT = 3, /* the time until which it waited has come, and no item matches */
    PT_JOB_EXIT = 4     /* it has exited with `reason`; `was` is what it was to do */
};

/* A job for the handler of a process. PT_JOB_EXIT comes once, and the process is not in the crew any more: it gets
 * no answer. `was` is PT_NEXT_RUNNING then if it had a job that nobody answered. `reason` is that of its own exit,
 * by PT_NEXT_STOP or pt_exit. If an exit signal ended the process, or it exited while its node was settled, `reason`
 * is the one that pt_crew_note_loss noted, or PT_NO_PROCESS if none was noted. The last three fields count for
 * PT_JOB_START, and are zero in other jobs. */
typedef struct pt_job {
    uint32_t code;
    pt_pid pid;
    uint64_t tag;        /* what the process was spawned or started with */
    pt_item item;
    pt_reason reason;
    pt_next was;
    bool has_supervisor; /* whether a supervisor started the process */
    bool again;          /* whether a child in the same place exited before */
    pt_pid supervisor;   /* the supervisor that started it */
} pt_job;

/* What a running process does next. */
typedef struct pt_answer { pt_pid pid; pt_next next; } pt_answer;

/* Which other children a supervisor ends and starts again with a child that has exited. */
enum pt_strategy_code {
    PT_ONE_FOR_ONE = 0, /* none */
    PT_ONE_FOR_ALL = 1, /* all */
    PT_REST_FOR_ONE = 2 /* those that are listed after it */
};

/* A supervisor without its children. A call that gets any other strategy returns PT_BAD_CODE. */
typedef struct pt_supervisor_spec {
    uint32_t strategy; /* a pt_strategy_code */
    bool timed;        /* whether `span` is in time (pt_crew_set_time), or in stamps of the desk */
    bool has_parent;   /* whether the supervisor exits with a process */
    pt_pid parent;     /* that process */
    size_t most;       /* how many restarts the supervisor makes within `span` */
    uint64_t span;     /* the length of time, or the number of stamps */
} pt_supervisor_spec;

/* Whether a child is started again after its exit. */
enum pt_restart_code {
    PT_PERMANENT = 0, /* always */
    PT_TRANSIENT = 1, /* unless it exited with PT_NORMAL or PT_SHUTDOWN */
    PT_TEMPORARY = 2  /* never */
};

/* How a supervisor ends a child. */
enum pt_shutdown_code {
    PT_SHUTDOWN_INFINITY = 0, /* by PT_SHUTDOWN, however long it takes */
    PT_SHUTDOWN_AFTER = 1,    /* by PT_SHUTDOWN, and after `time` by PT_KILL */
    PT_BRUTAL_KILL = 2        /* by PT_KILL */
};

/* What a supervisor knows of a child. A call that gets any other code returns PT_BAD_CODE. */
typedef struct pt_child_spec {
    uint64_t tag;      /* what each process of this child is spawned with */
    uint32_t restart;  /* a pt_restart_code */
    uint32_t shutdown; /* a pt_shutdown_code */
    uint64_t time;     /* for PT_SHUTDOWN_AFTER (pt_crew_set_time) */
    bool elsewhere;    /* whether the program starts it, on another desk (pt_crew_child_to_start) */
} pt_child_spec;

/* A child of a supervisor, at its place. */
typedef struct pt_child {
    bool has_pid;      /* whether it was started, and the supervisor has not got its exit */
    bool wanted;       /* whether the supervisor wants it alive */
    pt_pid pid;        /* the process of the child */
    uint32_t restart;
    uint32_t shutdown;
    uint64_t time;
} pt_child;

/* How many children a supervisor has. */
typedef struct pt_child_counts {
    size_t specs;      /* all, alive or not */
    size_t active;     /* those that are alive, by all that the supervisor has heard */
    size_t restarting; /* those that it is to start */
} pt_child_counts;

/* Why a supervisor gave up: a child exited that was to be started again, and its limit allowed no further restart. */
typedef struct pt_gave_up {
    uint64_t tag;     /* the tag of that child */
    size_t place;     /* the place of that child */
    pt_reason reason; /* the reason of its exit */
    size_t restarts;  /* how many restarts the supervisor had made within the span */
    uint64_t span;    /* the span of the limit */
    bool timed;       /* whether the span is one of time, and not of stamps */
} pt_gave_up;

/* The name of a timer. No two timers of one pt_timers have the same. */
typedef struct pt_timer {
    uint64_t at;     /* when it is due */
    uint64_t number; /* how many timers were started before it */
} pt_timer;

/* A timer that is due. */
typedef struct pt_fired {
    pt_timer timer;
    uint64_t body;  /* the number that it was started with */
} pt_fired;

/* The name of a process: its letters, and zeros after them. A name of 32 letters has no zero: print it by "%.32s". */
typedef struct pt_name { char letters[32]; } pt_name;

/* The process that has a name, and the monitor that it was registered with. */
typedef struct pt_holder { pt_pid pid; pt_ref monitor; } pt_holder;

/* A call that a client made to a server. Keep it while it waits, and show it each item that its client gets
 * (pt_hear). */
typedef struct pt_call {
    pt_pid client;
    pt_pid server;
    pt_ref monitor;    /* the monitor of the server; its number is the number of the answer */
    bool has_deadline; /* whether the call ends at a deadline */
    bool waits;        /* whether the call still waits for its answer */
    bool left_open;    /* it has ended with its monitor open: pt_demonitor closes it, or else its DOWN may arrive */
    uint64_t deadline; /* the moment at which pt_expire ends the call */
} pt_call;

/* A request that arrived. */
typedef struct pt_request {
    pt_pid from;    /* who asks */
    uint32_t asks;  /* what is asked, a number of your own */
    int64_t number; /* the number that the answer carries */
} pt_request;

/* What an item means to a call. */
enum pt_heard_code {
    PT_HEARD_ANSWER = 0,      /* its answer, `answer`; the call has ended */
    PT_HEARD_SERVER_DOWN = 1, /* its server has exited with `reason`, and there is no answer; the call has ended */
    PT_HEARD_LATE = 2,        /* its answer or its DOWN, after the call had ended: nothing is left to do with it */
    PT_HEARD_NOT_MINE = 3     /* nothing of this call */
};

/* What pt_hear found out. */
typedef struct pt_heard { uint32_t code; uint32_t answer; pt_reason reason; } pt_heard;

/* A message from a thread without a desk, to a process of any desk. */
typedef struct pt_post { pt_pid to; pt_body body; } pt_post;
/* [abi: end] */

/* ---- nodes */

/* Opens a node: the `count` handles, all empty before, get its desks in order. PT_FILLED, PT_MEMORY; PT_BAD_DESKS to
 * PT_BAD_START: the first setting that is out of its range. */
uint32_t pt_open(pt_desk *desks, size_t count, pt_config config);

/* Brings all desks of one pt_open or one resumption together, in order. Their handles are empty afterwards, and `out`
 * has the node. PT_EMPTY: a desk is missing, or `count` is 0. PT_BAD_DESKS: there are more or fewer desks than their
 * node has, or one is not at the place of its number. PT_FILLED: `out` has a node. PT_MEMORY: all desks are in their
 * handles still. Desks of different nodes are not detected. */
uint32_t pt_gather(pt_desk *desks, size_t count, pt_gathered *out);

/* Delivers the letters that are left over. `node` is empty afterwards, and `out` has the settled node. PT_EMPTY,
 * PT_FILLED. PT_MEMORY, PT_WORN: `node` has what was handled so far, and may be settled again.
 *
 * pt_settle lists the pids of all processes that ever were. pt_settle_unlisted is for a program that pauses often: without
 * the list, a pause costs what happened since the last one. */
uint32_t pt_settle(pt_gathered *node, pt_quiet *out);
uint32_t pt_settle_unlisted(pt_gathered *node, pt_quiet *out);

/* Makes that list, if the settled node has none. No other call but pt_quiet_pid_count and pt_quiet_pid_at needs it.
 * PT_EMPTY. PT_MEMORY: the node is as it was, without a list. */
uint32_t pt_quiet_list(pt_quiet *node);

/* Resumes a settled node, with its list or without. `node` is empty afterwards, and the `count` handles, all empty
 * before, have its desks in order, with empty journals. A live process has its links, monitors, flag and waiting items.
 * An exited process stays exited. Clocks and the versions of slots go on. The history of the node is gone: take it
 * before, if you want to keep it. PT_EMPTY. PT_FILLED: the handle of a desk is not empty. PT_BAD_DESKS: the node has
 * another number of desks. PT_MEMORY: `node` is as it was. */
uint32_t pt_resume(pt_quiet *node, pt_desk *desks, size_t count);

/* Free the value of a handle. The handle is empty afterwards. PT_EMPTY: it was empty already. */
uint32_t pt_give_up(pt_desk *desk);
uint32_t pt_gathered_give_up(pt_gathered *node);
uint32_t pt_quiet_give_up(pt_quiet *node);
uint32_t pt_history_give_up(pt_history *history);
uint32_t pt_crew_give_up(pt_crew *crew);         /* its processes stay on their desk */
uint32_t pt_timers_give_up(pt_timers *timers);
uint32_t pt_names_give_up(pt_names *names);
uint32_t pt_groups_give_up(pt_groups *groups);
uint32_t pt_door_give_up(pt_door *door);
uint32_t pt_way_in_give_up(pt_way_in *way_in);   /* the messages that wait in it are dropped */

/* ---- calls of a process on its desk. Each may return PT_GONE, PT_WORN, PT_MEMORY and PT_EMPTY
 *
 * If several codes fit, PT_EMPTY comes first, then PT_BAD_CODE, then PT_UNKNOWN, and then those of the desk. After
 * PT_BAD_CODE nothing has changed, and nothing is noted. */

uint32_t pt_spawn(pt_desk *desk, pt_pid *out);                                            /* no PT_GONE; PT_FULL */
uint32_t pt_spawn_child(pt_desk *desk, pt_pid parent, bool linked, pt_pid *out);          /* PT_FULL */
uint32_t pt_send(pt_desk *desk, pt_pid from, pt_pid to, pt_body body);                    /* PT_NOPROC, PT_UNKNOWN */
uint32_t pt_exit_signal(pt_desk *desk, pt_pid from, pt_pid to, pt_reason reason);         /* PT_BAD_CODE, PT_UNKNOWN */
uint32_t pt_link(pt_desk *desk, pt_pid p, pt_pid to);                                     /* PT_NOPROC, PT_UNKNOWN */
uint32_t pt_unlink(pt_desk *desk, pt_pid p, pt_pid to);                                   /* PT_UNKNOWN */
uint32_t pt_monitor(pt_desk *desk, pt_pid watcher, pt_pid target, pt_ref *out); /* PT_MYSELF, PT_NOPROC, PT_UNKNOWN */
uint32_t pt_demonitor(pt_desk *desk, pt_pid watcher, pt_ref monitor, bool flush, bool *wrote);
uint32_t pt_ask_alive(pt_desk *desk, pt_pid p, pt_pid target, pt_ref *out);               /* PT_UNKNOWN */
uint32_t pt_trap(pt_desk *desk, pt_pid p, bool on, bool *was);
uint32_t pt_receive(pt_desk *desk, pt_pid p, pt_pick pick, pt_item *out);   /* PT_BAD_CODE; PT_NOTHING: none matches */
uint32_t pt_exit(pt_desk *desk, pt_pid p, pt_reason reason);                              /* PT_BAD_CODE */

/* Posts the letters that wait in the outbox, and handles at most `budget` letters. PT_EMPTY. If the turn stops at a
 * letter, `out` says why. */
uint32_t pt_turn(pt_desk *desk, uint32_t budget, pt_turned *out);

/* The desks for which letters wait in the outbox: one bit a desk, the lowest for desk 0. A turn posts only to desks
 * for which letters waited as it began (proved). So call this right before pt_turn or pt_crew_step, and wake the
 * threads of these desks right after it. PT_EMPTY. */
uint32_t pt_letters_out(pt_desk *desk, uint64_t *out);

/* Whether a letter waits: in the outbox, in a lane to this desk that shows one, or at the place where a turn stopped.
 * If none does, a turn does nothing until another desk posts to this one. The call looks at the lanes, and nothing
 * else of the desk changes. PT_EMPTY. */
uint32_t pt_has_letters(pt_desk *desk, bool *out);

/* Lets the next turn look at the lane from desk `from` before the others: so a turn of one letter handles the oldest of
 * that lane, if it shows one. Nothing changes if the node has no such desk. PT_EMPTY.
 * pt_next_from says which lane the next letter comes from: the first that shows one, from where the next turn looks first.
 * The call looks at the lanes, and nothing else of the desk changes. PT_EMPTY; PT_NOTHING: no lane shows a letter. */
uint32_t pt_look_from(pt_desk *desk, uint8_t from);
uint32_t pt_next_from(pt_desk *desk, uint8_t *out);

/* ---- calls with answers, as Erlang's gen_server:call. Each that gets a desk may return PT_EMPTY, which comes first.
 * Each that gets an item returns PT_BAD_CODE next, if the code of the item or of its reason means nothing. No call
 * takes an item out of a mailbox. */

/* Asks a server: monitors it, and sends it the request under the number of the monitor. `out` gets the call.
 * pt_ask_until makes a call that ends at the moment `deadline` if it is open then (pt_expire); the moment may be in
 * the past. The codes are those of pt_monitor, and nothing is asked then. PT_WORN, PT_MEMORY: the request was not
 * sent, and the monitor is cancelled. If cancelling fails too, `out` gets the call, which has ended and is
 * `left_open`: so an output is written although the call fails. If the server is found to have exited only as the
 * request is sent, the call is made, and its DOWN ends it. */
uint32_t pt_ask(pt_desk *desk, pt_pid me, pt_pid server, uint32_t asks, pt_call *out);
uint32_t pt_ask_until(pt_desk *desk, pt_pid me, pt_pid server, uint32_t asks, uint64_t deadline, pt_call *out);

/* Reads an item that the client got: `out` gets what it means to the call. If the call ends by it, its monitor is
 * cancelled (or `left_open` is true), and `waits` is false. A call ends once. PT_BAD_CODE. */
uint32_t pt_hear(pt_desk *desk, pt_call *call, pt_item item, pt_heard *out);

/* Reports the time: `out` gets whether the call ends by its deadline now. It does if it is open and its deadline is
 * at or before `now`. Its monitor is cancelled then (or `left_open` is true), and an answer that arrives later is
 * PT_HEARD_LATE. So show the call what waits in the mailbox first. */
uint32_t pt_expire(pt_desk *desk, pt_call *call, uint64_t now, bool *out);

/* The request that an item is: a message that names its own sender. PT_BAD_CODE. PT_NOTHING: it is none. */
uint32_t pt_request_of(pt_item item, pt_request *out);

/* Whether an item that `me` got is a message of a call: a request, which names its own sender, or an answer, which
 * names `me`. The kind of such a message is what is asked, or the answer. So call this before you read a kind as your
 * own. `out` is true for each request and each answer (proved), also for an answer to a call that was dropped. It is
 * true for a message of your own too if its body names its sender or its receiver, so send none that does. The DOWN
 * of a call is an item as any DOWN: pt_hear reads it. PT_BAD_CODE. */
uint32_t pt_is_call(pt_pid me, pt_item item, bool *out);

/* Answers a request, at once or later. The codes are those of pt_send. If the client has exited, there is nothing
 * left to do. */
uint32_t pt_reply(pt_desk *desk, pt_pid me, pt_request request, uint32_t answer);

/* ---- the way in: messages from threads that have no desk. Each call may return PT_EMPTY
 *
 * A way in has two ends, each in a handle of its own. A thread without a desk holds the door, and the thread of a
 * desk the way in. The two may be used at the same time. Messages come out as they were handed in, in order, each
 * once (proved). Sleeping and waking are yours: wake the thread of the desk after pt_door_post. */

/* Makes a way in with so many places. PT_FILLED: a handle is not empty. PT_BAD_PLACES: `places` is 0. PT_MEMORY. */
uint32_t pt_door_open(pt_door *door, pt_way_in *way_in, uint32_t places);

/* Hands in a message, which waits in the way in then. If it returns another code, the message is yours still:
 *  - PT_GONE: the way in was given up. Each later call returns this code too;
 *  - PT_FULL: the door knows of no free place. Wait, and try again.
 * If the way in is given up before the message is taken out, the message is dropped. Another thread may give it up at
 * any time, also during this call. */
uint32_t pt_door_post(pt_door *door, pt_post post);

/* Takes out the oldest message that waits. Send it on by pt_send, as a process of the desk. PT_NOTHING: none waits. */
uint32_t pt_way_in_take(pt_way_in *way_in, pt_post *out);

/* The number of messages that wait. More may be handed in at any time. */
uint32_t pt_way_in_len(pt_way_in *way_in, size_t *out);

/* ---- what a desk lost. Each call may return PT_EMPTY
 *
 * A message is lost if its receiver exits before it takes it, or is not alive as it arrives. If you keep something
 * beside a message, a loss is how you learn that nobody will take it. A desk keeps its losses, in order, only if you
 * ask it to (pt_keep_losses), and until you have read them. Losses take memory; nothing is kept otherwise. What is
 * lost while a node is settled is a loss of the desk of the same number in the node that is resumed.
 *
 * Each exit of a process of the desk is a loss, even if nothing waited: `items` is 0 then, and `reason` is that of
 * the exit. So a desk that keeps its losses has one for each of its processes that exits, and pt_next_loss passes
 * each. */

/* Sets whether losses are kept from now on. At first they are not. */
uint32_t pt_keep_losses(pt_desk *desk, bool on);

/* The loss at this place among those that are kept, 0 the oldest, and an item of it. PT_NOTHING: no such loss or
 * item. */
uint32_t pt_loss_at(pt_desk *desk, size_t place, pt_loss *out);
uint32_t pt_loss_item(pt_desk *desk, size_t place, size_t item, pt_item *out);

/* Drops the oldest loss, which you have read. PT_NOTHING: there was none. */
uint32_t pt_next_loss(pt_desk *desk);

/* ---- crews: the processes of one desk whose handlers are yours, and their supervisors. Each call may return
 * PT_EMPTY, which comes first. Each that gets a desk returns PT_WRONG_DESK if the crew belongs to a desk of another
 * number. Only PT_BAD_CODE comes before that.
 *
 * A loop is: pt_crew_step; for each job its handler, which makes calls of the desk as it likes; for each job but
 * PT_JOB_EXIT an answer, then or later; pt_crew_answer. A handler takes no item from a mailbox of the crew by itself.
 * The turn of the next step posts what the handlers sent.
 *
 * A process of a crew has a handler of yours, or it is a supervisor. A supervisor handles what it gets itself: it
 * starts its children, and starts them again when they exit. A step runs it, and it is in no job but the PT_JOB_EXIT
 * of its own exit. Make no call of the desk for it. The first job of a child is PT_JOB_START, unless it has exited
 * before: make its state then, and answer for it. docs/RUNTIME.md says under 'Supervisors' what a supervisor does.
 *
 * No wake-up is lost: a process of the crew that has something to do is in the queue, or the next step finds it. If
 * the crew is idle (pt_crew_is_idle) and no letter waits (pt_pending), there is nothing to do before the time of
 * pt_crew_next_time, unless another desk sends something. */

/* Begins a crew, with no process and at the time 0. It belongs to the desk of its first spawn or its first step.
 * PT_FILLED, PT_MEMORY. */
uint32_t pt_crew_open(pt_crew *crew);

/* Spawns a process on the desk as pt_spawn and pt_spawn_child do. It is in the crew then, with this tag, and does
 * `first` next. If that is PT_NEXT_PROCEED, its first job is PT_JOB_START. PT_BAD_CODE, and then the codes of
 * pt_spawn and pt_spawn_child. The parent is not a supervisor of the crew: that starts its children itself. */
uint32_t pt_crew_spawn(pt_crew *crew, pt_desk *desk, uint64_t tag, pt_next first, pt_pid *out);
uint32_t pt_crew_spawn_child(pt_crew *crew, pt_desk *desk, pt_pid parent, bool linked, uint64_t tag, pt_next first,
    pt_pid *out);

/* Spawns a supervisor with this tag. It starts its children in the next step, in order. PT_BAD_CODE: a code of it or
 * of a child means nothing. Then the codes of pt_spawn; PT_MEMORY also if there is none for `most` restarts. */
uint32_t pt_crew_spawn_supervisor(pt_crew *crew, pt_desk *desk, uint64_t tag, pt_supervisor_spec spec,
    const pt_child_spec *children, size_t count, pt_pid *out);

/* Answers for a running process that it is a supervisor. So a child may have children: answer its PT_JOB_START by
 * this, each time it is started, with its own supervisor as the `parent`, with which it exits. PT_BAD_CODE: a code of
 * it or of a child means nothing. PT_NOT_RUNNING: p is not running, or is not in the crew. PT_MEMORY: it is running
 * still. */
uint32_t pt_crew_supervise(pt_crew *crew, pt_pid p, pt_supervisor_spec spec, const pt_child_spec *children,
    size_t count);

/* Runs one step:
 *  1. a turn of the desk with this budget; its result goes to `turned`;
 *  2. new events are read, and processes whose time has come are woken;
 *  3. the processes in the queue run in order, each at most once, until `jobs` has `most` jobs;
 *  4. the children that supervisors started join the crew, at the end of the queue. One that has exited before is in
 *     no job.
 * `count` gets the number of jobs. What is after them in `jobs` stays as it was, and no process is in `jobs` twice.
 * After any job but PT_JOB_EXIT a process is running. If memory or stamps did not suffice for a process, it stays in
 * the queue, and pt_crew_refused says so. */
uint32_t pt_crew_step(pt_crew *crew, pt_desk *desk, uint32_t budget, pt_job *jobs, size_t most, size_t *count,
    pt_turned *turned);

/* Takes the answers in order, up to the first that fails. `taken` gets the number of those that were taken. If all
 * were, it returns PT_OK. Otherwise it returns the code of the answer at place `taken`, which has changed nothing:
 * PT_BAD_CODE; PT_NOT_RUNNING, if its process is not running or is not in the crew. */
uint32_t pt_crew_answer(pt_crew *crew, const pt_answer *answers, size_t count, size_t *taken);

/* Notes the exit reason that a loss of the desk has; `place` is that of pt_loss_at. A crew knows every reason if its
 * desk keeps its losses and each is noted before the step that reports the exit: pt_turn, then this for each loss,
 * and then pt_crew_step with the budget 0. PT_NOTHING: there is no such loss. */
uint32_t pt_crew_note_loss(pt_crew *crew, pt_desk *desk, size_t place);

/* Sets the time of the calls that follow, in a unit of your own. */
uint32_t pt_crew_set_time(pt_crew *crew, uint64_t now);

/* Pauses a whole node and resumes it, at any time between two steps; crews[k] is the crew of desks[k]. It gathers the
 * desks, settles the node without the list of all pids, takes its history, resumes it, and lets each crew resume over
 * the desk of its number, as pt_crew_go_on does with that history. After PT_OK `desks` has the desks, with empty
 * journals. `history` has what happened since the journals were empty last. `gathered` and `settled` are empty. Each
 * process of the crews does next what it was to do, and a running one may be answered as before. Each is in the queue,
 * supervisors too, so the next steps find what it got, such as the exit of a supervisor's child. They also report each
 * exit that was not reported, with its reason: also an exit in settling, and one whose reason a loss had
 * (pt_crew_note_loss). The desks keep their losses.
 *
 * The four handles of one node are those of the desks, `gathered`, `settled` and `history`. At first the desks are
 * full, and the other three are empty. If several codes fit, the first of these is returned:
 *  - Nothing has changed. PT_EMPTY: a crew is missing. PT_BAD_DESKS: there are not as many crews as desks. PT_FILLED:
 *    `history` is not empty. PT_WRONG_DESK: crews[k] belongs to a desk of another number than k. PT_FILLED: a desk is
 *    not empty while `gathered` or `settled` has a node. Then the codes of pt_gather: PT_EMPTY, PT_BAD_DESKS,
 *    PT_MEMORY.
 *  - The node is in `gathered`, with what was handled so far, and the desks are empty. PT_MEMORY. PT_WORN: a clock is
 *    at its limit.
 *  - The node is in `settled`, and all else is empty. PT_MEMORY.
 * In each case the crews are as they were, and nothing is lost: the same call, made again, resumes where it stopped.
 * If you do not want to resume a node, read it and give it up by the calls of its handle. A node that you gathered or
 * settled yourself (pt_gather, pt_settle_unlisted) is resumed in the same way. PT_FILLED: both handles have a node.
 * PT_BAD_DESKS, with the node in `settled`: it has another number of desks. */
uint32_t pt_crews_go_on(pt_crew *crews, size_t crew_count, pt_desk *desks, size_t desk_count, pt_gathered *gathered,
    pt_quiet *settled, pt_history *history);

/* The same for one crew of a node that you gather, settle and resume by calls of your own: pt_gather,
 * pt_settle_unlisted, pt_quiet_history, pt_resume, and this for each crew. The crew resumes over the desk of the same
 * number, with the history of the node before. Exits need not have been reported before: their reasons are kept from the
 * history. */
uint32_t pt_crew_go_on(pt_crew *crew, pt_history *history);

/* The same without the history. If a process exited while the node was settled, the next steps report it. Before the
 * node is gathered, each exit must have been reported, as it is if the crew is idle. PT_MEMORY: it may be called
 * again. */
uint32_t pt_crew_begin_again(pt_crew *crew);

/* The earliest time until which a process outside of the queue waits. PT_NOTHING: there is none. */
uint32_t pt_crew_next_time(pt_crew *crew, uint64_t *out);

/* The tag of a process, and what it does next. PT_NOTHING: it is not in the crew. */
uint32_t pt_crew_tag(pt_crew *crew, pt_pid p, uint64_t *out);
uint32_t pt_crew_next(pt_crew *crew, pt_pid p, pt_next *out);

/* The number of processes of the crew, supervisors too, and of those in the queue, which may have something to do. */
uint32_t pt_crew_len(pt_crew *crew, size_t *out);
uint32_t pt_crew_queued(pt_crew *crew, size_t *out);

/* Whether the queue is empty, and all events of the desk were read. */
uint32_t pt_crew_is_idle(pt_crew *crew, pt_desk *desk, bool *out);

/* Whether memory or stamps did not suffice for a process in the last step. */
uint32_t pt_crew_refused(pt_crew *crew, bool *out);

/* The number of children of a supervisor, and the child at a place. PT_NOTHING: p is not a supervisor of the crew; no
 * child is at the place. */
uint32_t pt_crew_children(pt_crew *crew, pt_pid p, size_t *out);
uint32_t pt_crew_child(pt_crew *crew, pt_pid p, size_t place, pt_child *out);

/* Asks a supervisor for one more child, after the others: Erlang's start_child. `place` gets its place. Its tag is also
 * what the calls below name it by. The supervisor is in the queue then, and the next step starts the child. If it ends
 * another child just now, it starts this one once that has exited. PT_BAD_CODE: a code of the child means nothing.
 * PT_NOTHING: p is not a supervisor of the crew. PT_CHILD_RUNNING, PT_CHILD_PRESENT: it has a child with this tag, which
 * is running, or is not. PT_MEMORY. */
uint32_t pt_crew_start_child(pt_crew *crew, pt_pid p, pt_child_spec child, size_t *place);

/* Asks a supervisor to end the child with this tag, as its pt_child_spec says: Erlang's terminate_child. The child keeps
 * its place. It is not started again, unless pt_crew_restart_child asks for it or a strategy names it. The next step
 * tells it to exit. PT_NOTHING: p is not a supervisor of the crew, or has no such child. */
uint32_t pt_crew_terminate_child(pt_crew *crew, pt_pid p, uint64_t tag);

/* Asks a supervisor to start the child with this tag, which it ended or which is done: Erlang's restart_child. The next
 * step starts it. PT_NOTHING: p is not a supervisor of the crew, or has no such child. PT_CHILD_RUNNING: it is running.
 * PT_CHILD_RESTARTING: the supervisor is to start it already. */
uint32_t pt_crew_restart_child(pt_crew *crew, pt_pid p, uint64_t tag);

/* Asks a supervisor for the child that it wants started on another desk; `tag` gets the tag of it. A supervisor comes to a
 * child with `elsewhere` in its turn. It then starts and ends no other child, and does not exit, until
 * pt_crew_child_started or pt_crew_child_not_started answers. So ask each supervisor that has such children after each
 * step. PT_NOTHING: it wants none, or told of it before, or p is not a supervisor of the crew. */
uint32_t pt_crew_child_to_start(pt_crew *crew, pt_pid p, uint64_t *tag);

/* Tells a supervisor that the program has started the child with this tag on another desk, as the process `child`. The
 * next step links the two. If the process has exited by then, or is of the crew's desk, or is a child of it already, the
 * child was not started. PT_NOTHING: p is not a supervisor of the crew, or does not wait for this child: then the program
 * ends the process. */
uint32_t pt_crew_child_started(pt_crew *crew, pt_pid p, uint64_t tag, pt_pid child);

/* Tells a supervisor that the program has not started the child with this tag on another desk. The supervisor gives up if
 * that was the first start of the child. A start after an exit counts as a restart, and the supervisor asks again. A child
 * that pt_crew_start_child or pt_crew_restart_child asked for is not wanted any more. PT_NOTHING: as
 * pt_crew_child_started. */
uint32_t pt_crew_child_not_started(pt_crew *crew, pt_pid p, uint64_t tag);

/* Has a supervisor forget the child with this tag, which it ended or which is done: Erlang's delete_child. `place` gets
 * the place that it had. The children after it move up by one. Codes as of pt_crew_restart_child. */
uint32_t pt_crew_delete_child(pt_crew *crew, pt_pid p, uint64_t tag, size_t *place);

/* How many children a supervisor has: Erlang's count_children. PT_NOTHING: p is not a supervisor of the crew. */
uint32_t pt_crew_count_children(pt_crew *crew, pt_pid p, pt_child_counts *out);

/* Why a supervisor gave up. It then ends its children and exits with PT_SHUTDOWN. Once a job reports its exit, it is not
 * in the crew. PT_NOTHING: it has not given up, or p is not a supervisor of the crew. */
uint32_t pt_crew_gave_up(pt_crew *crew, pt_pid p, pt_gave_up *out);

/* ---- timers: numbers of your own, each due at a time, as Erlang's send_after and cancel_timer keep them. Each call
 * may return PT_EMPTY
 *
 * No call reads a clock. You pass the time as a number, in a unit of your own and in any order. A timer that was
 * started is pending, has fired or was cancelled. It stays fired or cancelled for ever. */

/* Begins timers, of which none is pending. PT_FILLED, PT_MEMORY. */
uint32_t pt_timers_open(pt_timers *timers);

/* Starts a timer that is due at the time `at`, with the number `body`. PT_MEMORY. PT_WORN: after 2^64 - 1 timers. */
uint32_t pt_timers_start(pt_timers *timers, uint64_t at, uint64_t body, pt_timer *out);

/* Cancels a timer: it never fires. PT_NOTHING: it was not pending. */
uint32_t pt_timers_cancel(pt_timers *timers, pt_timer timer);

/* Fires one timer that is due by `now`: the one with the earliest time, and the one started first among those.
 * PT_NOTHING: none is due. pt_timers_peek_due returns the same timer, and leaves it pending. */
uint32_t pt_timers_pop_due(pt_timers *timers, uint64_t now, pt_fired *out);
uint32_t pt_timers_peek_due(pt_timers *timers, uint64_t now, pt_fired *out);

/* The earliest time of a pending timer. PT_NOTHING: none is pending. */
uint32_t pt_timers_next(pt_timers *timers, uint64_t *out);

/* The number that a pending timer was started with. PT_NOTHING: it is not pending. */
uint32_t pt_timers_get(pt_timers *timers, pt_timer timer, uint64_t *out);

/* The number of pending timers. */
uint32_t pt_timers_len(pt_timers *timers, size_t *out);

/* ---- names: which process has which name, as Erlang's register and whereis keep it. Each call may return PT_EMPTY
 *
 * A name is `length` bytes: 1 to 32 ASCII letters, digits and '_', beginning with a letter. PT_BAD_NAME is returned
 * for other bytes, and comes right after PT_EMPTY. A name belongs to one process, and a process has one name at most.
 * Names know no desk: monitor each process that has one, and call pt_names_forget for its DOWN. */

/* Begins names, of which no process has one. PT_FILLED, PT_MEMORY. */
uint32_t pt_names_open(pt_names *names);

/* Gives p the name, and keeps the monitor with it. PT_BAD_NAME. PT_TAKEN: a process has the name. PT_HAS_NAME: p has
 * a name. PT_MEMORY. pt_names_check returns the same code, except PT_MEMORY, and changes nothing. */
uint32_t pt_names_register(pt_names *names, const char *name, size_t length, pt_pid p, pt_ref monitor);
uint32_t pt_names_check(pt_names *names, const char *name, size_t length, pt_pid p);

/* The process that has the name. PT_BAD_NAME. PT_NOTHING: no process has it. */
uint32_t pt_names_whereis(pt_names *names, const char *name, size_t length, pt_pid *out);

/* Removes a name; `out` gets the process that had it, and its monitor. PT_BAD_NAME. PT_NOTHING: no process has it. */
uint32_t pt_names_unregister(pt_names *names, const char *name, size_t length, pt_holder *out);

/* Removes the name of a process that has exited; `out` gets the name. PT_NOTHING: it has none. */
uint32_t pt_names_forget(pt_names *names, pt_pid p, pt_name *out);

/* The name of a process. PT_NOTHING: it has none. */
uint32_t pt_names_name_of(pt_names *names, pt_pid p, pt_name *out);

/* The number of names. */
uint32_t pt_names_len(pt_names *names, size_t *out);

/* ---- groups: which process is in which group, as Erlang's pg keeps it. Each call may return PT_EMPTY
 *
 * A group is a number to which the program gives a meaning. A process may be in many groups. It may join a group several
 * times, and is in it until it has left as often, or has exited. Groups know no desk: monitor each process that is in a
 * group, once, and call pt_groups_forget for its DOWN. To send to a group, send to each of its members. */

/* Begins groups, in which there is no process. PT_FILLED, PT_MEMORY. */
uint32_t pt_groups_open(pt_groups *groups);

/* Adds p to the group, once more if it is there already. `out` gets the monitor of p: the one passed, if p was in no
 * group, and otherwise the one that it had. So make a monitor only if pt_groups_monitor_of returns PT_NOTHING, and pass
 * what it writes otherwise. PT_MEMORY: p was not in the group, and is not. PT_FULL: p is in it 2^64 - 1 times. */
uint32_t pt_groups_join(pt_groups *groups, uint64_t group, pt_pid p, pt_ref monitor, pt_ref *out);

/* Takes p out of the group once. `last` gets whether p is in no group any more. If so, `out` gets its monitor, which you
 * demonitor; otherwise `out` is not written. PT_NOTHING: p is not in the group. */
uint32_t pt_groups_leave(pt_groups *groups, uint64_t group, pt_pid p, bool *last, pt_ref *out);

/* Removes a process that has exited from all its groups; `out` gets its monitor. It takes as many steps as p has groups.
 * PT_NOTHING: p is in no group. */
uint32_t pt_groups_forget(pt_groups *groups, pt_pid p, pt_ref *out);

/* The monitor of a process. PT_NOTHING: p is in no group. */
uint32_t pt_groups_monitor_of(pt_groups *groups, pt_pid p, pt_ref *out);

/* How often p is in the group: 0 if it is not. */
uint32_t pt_groups_times(pt_groups *groups, uint64_t group, pt_pid p, uint64_t *out);

/* The number of processes in the group, each counted once, and the process at a place, counted from 0. The order means
 * nothing, and may change with each call that changes the group. PT_NOTHING: no member at the place. */
uint32_t pt_groups_len(pt_groups *groups, uint64_t group, size_t *out);
uint32_t pt_groups_member_at(pt_groups *groups, uint64_t group, size_t place, pt_pid *out);

/* The group at a place of those that p is in, each once, counted from 0. PT_NOTHING: no group at the place. */
uint32_t pt_groups_group_at(pt_groups *groups, pt_pid p, size_t place, uint64_t *out);

/* ---- reading a desk. Each call may return PT_EMPTY */

uint32_t pt_clock(pt_desk *desk, uint64_t *out);
uint32_t pt_number(pt_desk *desk, uint8_t *out);
uint32_t pt_alive(pt_desk *desk, pt_pid p, bool *out);
uint32_t pt_knows(pt_desk *desk, pt_pid p, bool *out);
uint32_t pt_pending(pt_desk *desk, uint64_t *out);
uint32_t pt_vacant(pt_desk *desk, pt_pid *out);                                   /* PT_NOTHING: no slot is free */
uint32_t pt_waiting(pt_desk *desk, pt_pid p, size_t *out);                        /* PT_NOTHING: p is not alive here */
uint32_t pt_peek(pt_desk *desk, pt_pid p, size_t place, pt_item *out);            /* PT_NOTHING: no item there */
uint32_t pt_linked(pt_desk *desk, pt_pid p, pt_pid peer, pt_ids *out);            /* PT_NOTHING: no link */

/* What a process of the desk has, by place, 0 the oldest: its links, its open monitors, and the monitors that others
 * have of it. PT_NOTHING: from a count and from pt_traps, if p is not alive here; from the others, if there is none
 * at the place. */
uint32_t pt_link_count(pt_desk *desk, pt_pid p, size_t *out);
uint32_t pt_link_at(pt_desk *desk, pt_pid p, size_t place, pt_pid *peer, pt_ids *ids);
uint32_t pt_monitor_count(pt_desk *desk, pt_pid p, size_t *out);
uint32_t pt_monitor_at(pt_desk *desk, pt_pid p, size_t place, pt_ref *monitor, pt_pid *target);
uint32_t pt_watcher_count(pt_desk *desk, pt_pid p, size_t *out);
uint32_t pt_watcher_at(pt_desk *desk, pt_pid p, size_t place, pt_ref *monitor, pt_pid *watcher);
uint32_t pt_traps(pt_desk *desk, pt_pid p, bool *out);

/* The live process in a slot of the desk. PT_NOTHING: none. Every live process is in a slot below the setting
 * `slots`. */
uint32_t pt_lives_in(pt_desk *desk, uint32_t slot, pt_pid *out);

uint32_t pt_event_count(pt_desk *desk, size_t *out);
uint32_t pt_event_at(pt_desk *desk, size_t place, pt_event *out);                 /* PT_NOTHING: no such event */

/* Finds the next process that received a signal or exited, from event `*at` on, and moves `*at` past that event. No
 * process that got an item or exited is skipped (proved). A process may be returned without a new item, for example
 * after a link. Keep `*at` from call to call, and each such event is returned once. PT_NOTHING: there is no more, and
 * `*at` is past the newest event. */
uint32_t pt_next_woken(pt_desk *desk, size_t *at, pt_pid *out);

/* ---- reading a gathered node. Each call may return PT_EMPTY */

uint32_t pt_gathered_desks(pt_gathered *node, uint8_t *out);

/* `out`, empty before, gets the events of all desks in one legal order, and the letters left over. PT_FILLED,
 * PT_MEMORY. */
uint32_t pt_gathered_history(pt_gathered *node, pt_history *out);

/* ---- reading a settled node. Each call may return PT_EMPTY. PT_UNLISTED: the node was settled by pt_settle_unlisted or
 * pt_crews_go_on, and pt_quiet_list was not called */

uint32_t pt_quiet_history(pt_quiet *node, pt_history *out);                       /* PT_FILLED, PT_MEMORY */
uint32_t pt_quiet_desks(pt_quiet *node, uint8_t *out);
uint32_t pt_quiet_handled(pt_quiet *node, uint64_t *out);
uint32_t pt_quiet_pid_count(pt_quiet *node, size_t *out);                         /* PT_UNLISTED */
uint32_t pt_quiet_pid_at(pt_quiet *node, size_t place, pt_pid *out);              /* PT_UNLISTED, PT_NOTHING */
uint32_t pt_quiet_account(pt_quiet *node, pt_pid p, pt_account *out);             /* PT_NOTHING: never spawned */
uint32_t pt_quiet_linked(pt_quiet *node, pt_pid p, pt_pid peer, pt_ids *out);     /* PT_NOTHING */
uint32_t pt_quiet_kept(pt_quiet *node, pt_pid target, pt_ref monitor, bool *out);
uint32_t pt_quiet_watching(pt_quiet *node, pt_pid watcher, pt_ref monitor, bool *out);

/* ---- reading a history. Each call may return PT_EMPTY */

uint32_t pt_history_count(pt_history *history, size_t *out);
uint32_t pt_history_at(pt_history *history, size_t place, pt_event *out);         /* PT_NOTHING */
uint32_t pt_history_left_count(pt_history *history, size_t *out);
uint32_t pt_history_left_at(pt_history *history, size_t place, pt_left_over *out); /* PT_NOTHING */

/* ---- what the library says of itself, to be compared with this header (about.c does) */

/* [abi: about] */
/* Each code of the library. */
typedef struct pt_codes {
    uint32_t done, full, memory, worn, gone, myself, noproc, unknown, nothing, empty, filled, bad_desks, bad_slots,
        bad_top_version, bad_lane, bad_start, bad_code, not_running, wrong_desk, bad_name, taken, has_name, bad_places,
        unlisted, reason_normal, reason_kill, reason_killed, reason_noproc, reason_shutdown, reason_other, item_user,
        item_exit, item_down, item_alive, pick_kind, pick_from, pick_exit_of, pick_down_of, pick_alive_of, pick_any,
        signal_message, signal_link, signal_unlink, signal_exit, signal_link_exit, signal_monitor, signal_demonitor,
        signal_down, signal_alive_ask, signal_alive_say, event_born, event_said, event_came, event_took, event_flag,
        event_left, event_refused, next_wait, next_wait_until, next_proceed, next_stop, next_running, job_start,
        job_proceed, job_item, job_timeout, job_exit;
} pt_codes;

/* The size of each struct, in bytes. */
typedef struct pt_sizes {
    size_t pid, reference, ids, reason, body, item, pick, signal, event, left_over, turned, account, config, next, job,
        answer, loss, timer, fired, name, holder, codes;
} pt_sizes;

/* A sample of each struct of calls, and its size. */
typedef struct pt_asking_about {
    pt_call call;
    pt_request request;
    pt_heard heard;
    size_t call_size;
    size_t request_size;
    size_t heard_size;
} pt_asking_about;

/* The codes of supervisors, and the size of each of their structs. */
typedef struct pt_supervisor_codes {
    uint32_t one_for_one;
    uint32_t one_for_all;
    uint32_t rest_for_one;
    uint32_t permanent;
    uint32_t transient;
    uint32_t temporary;
    uint32_t infinity;
    uint32_t after;
    uint32_t brutal_kill;
    size_t supervisor_spec;
    size_t child_spec;
    size_t child;
    uint32_t child_running;
    uint32_t child_restarting;
    uint32_t child_present;
    size_t child_counts;
    size_t gave_up;
} pt_supervisor_codes;
/* [abi: end] */

void pt_about_codes(pt_codes *out);
void pt_about_sizes(pt_sizes *out);

/* Samples: the fields have the numbers 1, 2, 3 and so on in order, a bool being true. */
void pt_about_event(pt_event *out);
void pt_about_left_over(pt_left_over *out);
void pt_about_turned(pt_turned *out);
void pt_about_account(pt_account *out);
void pt_about_loss(pt_loss *out);
void pt_about_fired(pt_fired *out);
void pt_about_holder(pt_holder *out);
void pt_about_config(pt_config *out);
void pt_about_job(pt_job *out);
void pt_about_answer(pt_answer *out);
void pt_about_asking(pt_asking_about *out);       /* samples, and their sizes */
void pt_about_post(pt_post *out, size_t *size);   /* and its size */

/* The codes of supervisors, the sizes of their structs, and samples. */
void pt_about_supervisors(pt_supervisor_codes *out);
void pt_about_supervisor_spec(pt_supervisor_spec *out);
void pt_about_child_spec(pt_child_spec *out);
void pt_about_child(pt_child *out);
void pt_about_child_counts(pt_child_counts *out);
void pt_about_gave_up(pt_gave_up *out);

/* [abi: sizes] */
/* Each struct has the size that it has in the library, or this header does not compile. */
#if defined(__cplusplus) && __cplusplus >= 201103L
#define PT_SIZE_IS(type, size) \
    static_assert(sizeof(type) == (size), "pundewo.h: " #type " has another size in the library")
#elif !defined(__cplusplus) && defined(__STDC_VERSION__) && __STDC_VERSION__ >= 201112L
#define PT_SIZE_IS(type, size) \
    _Static_assert(sizeof(type) == (size), "pundewo.h: " #type " has another size in the library")
#else
#define PT_SIZE_IS(type, size) extern const char type##_has_its_size[sizeof(type) == (size) ? 1 : -1]
#endif
PT_SIZE_IS(pt_pid, 12);
PT_SIZE_IS(pt_ref, 16);
PT_SIZE_IS(pt_ids, 40);
PT_SIZE_IS(pt_reason, 8);
PT_SIZE_IS(pt_body, 32);
PT_SIZE_IS(pt_item, 80);
PT_SIZE_IS(pt_pick, 40);
PT_SIZE_IS(pt_signal, 104);
PT_SIZE_IS(pt_event, 288);
PT_SIZE_IS(pt_left_over, 144);
PT_SIZE_IS(pt_turned, 24);
PT_SIZE_IS(pt_account, 40);
PT_SIZE_IS(pt_config, 24);
PT_SIZE_IS(pt_loss, 32);
PT_SIZE_IS(pt_next, 64);
PT_SIZE_IS(pt_job, 192);
PT_SIZE_IS(pt_answer, 80);
PT_SIZE_IS(pt_supervisor_spec, 40);
PT_SIZE_IS(pt_child_spec, 32);
PT_SIZE_IS(pt_child, 32);
PT_SIZE_IS(pt_child_counts, 24);
PT_SIZE_IS(pt_gave_up, 48);
PT_SIZE_IS(pt_timer, 16);
PT_SIZE_IS(pt_fired, 24);
PT_SIZE_IS(pt_name, 32);
PT_SIZE_IS(pt_holder, 32);
PT_SIZE_IS(pt_call, 56);
PT_SIZE_IS(pt_request, 24);
PT_SIZE_IS(pt_heard, 16);
PT_SIZE_IS(pt_post, 48);
PT_SIZE_IS(pt_codes, 268);
PT_SIZE_IS(pt_sizes, 176);
PT_SIZE_IS(pt_asking_about, 120);
PT_SIZE_IS(pt_supervisor_codes, 96);
#undef PT_SIZE_IS
/* [abi: end] */

#ifdef __cplusplus
}
#endif
#endif
