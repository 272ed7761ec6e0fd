/* The texts of Pundewo's values, as Rattle prints them: each function writes to a FILE. */
#ifndef PUNDEWO_TEXT_H
#define PUNDEWO_TEXT_H

#include <inttypes.h>
#include <stdio.h>

#include "pundewo.h"

static inline void pt_print_pid(FILE *to, pt_pid p) {
    fprintf(to, "<%u.%" PRIu32 ".%" PRIu32 ">", p.shard, p.slot, p.version);
}

static inline void pt_print_ref(FILE *to, pt_ref m) { fprintf(to, "#%u.%" PRIu64, m.desk, m.number); }

static inline void pt_print_link(FILE *to, pt_ref i) { fprintf(to, "~%u.%" PRIu64, i.desk, i.number); }

static inline void pt_print_ids(FILE *to, pt_ids ids) {
    pt_print_link(to, ids.one);
    if (ids.has_two) {
        fputc('+', to);
        pt_print_link(to, ids.two);
    }
}

static inline void pt_print_reason(FILE *to, pt_reason r) {
    static const char *const names[] = {"normal", "kill", "killed", "noproc", "shutdown"};
    if (r.code < PT_OTHER) fputs(names[r.code], to);
    else fprintf(to, "other:%" PRIu32, r.number);
}

static inline void pt_print_body(FILE *to, pt_body b) {
    fprintf(to, "%" PRIu32 " %" PRId64, b.kind, b.num);
    if (b.has_who) {
        fputs(" who ", to);
        pt_print_pid(to, b.who);
    }
}

static inline void pt_print_item(FILE *to, pt_item i) {
    static const char *const names[] = {"user ", "exit ", "down ", "alive "};
    fputs(names[i.code], to);
    if (i.code == PT_ITEM_DOWN || i.code == PT_ITEM_ALIVE) {
        pt_print_ref(to, i.reference);
        fputc(' ', to);
    }
    pt_print_pid(to, i.pid);
    fputc(' ', to);
    if (i.code == PT_ITEM_USER) pt_print_body(to, i.body);
    else if (i.code == PT_ITEM_ALIVE) fputs(i.alive ? "yes" : "no", to);
    else pt_print_reason(to, i.reason);
}

static inline void pt_print_pick(FILE *to, pt_pick k) {
    switch (k.code) {
    case PT_PICK_KIND: fprintf(to, "kind %" PRIu32, k.kind); break;
    case PT_PICK_FROM: fputs("from ", to); pt_print_pid(to, k.pid); break;
    case PT_PICK_EXIT_OF: fputs("exit-of ", to); pt_print_pid(to, k.pid); break;
    case PT_PICK_DOWN_OF: fputs("down-of ", to); pt_print_ref(to, k.reference); break;
    case PT_PICK_ALIVE_OF: fputs("alive-of ", to); pt_print_ref(to, k.reference); break;
    default: fputs("any", to);
    }
}

static inline void pt_print_signal(FILE *to, pt_signal x) {
    switch (x.code) {
    case PT_SIGNAL_MESSAGE: fputs("message ", to); pt_print_body(to, x.body); break;
    case PT_SIGNAL_LINK: fputs("link ", to); pt_print_link(to, x.ids.one); break;
    case PT_SIGNAL_UNLINK: fputs("unlink ", to); pt_print_ids(to, x.ids); break;
    case PT_SIGNAL_EXIT: fputs("exit ", to); pt_print_reason(to, x.reason); break;
    case PT_SIGNAL_LINK_EXIT:
        fputs("link-exit ", to); pt_print_ids(to, x.ids); fputc(' ', to); pt_print_reason(to, x.reason); break;
    case PT_SIGNAL_MONITOR: fputs("monitor ", to); pt_print_ref(to, x.reference); break;
    case PT_SIGNAL_DEMONITOR: fputs("demonitor ", to); pt_print_ref(to, x.reference); break;
    case PT_SIGNAL_DOWN:
        fputs("down ", to); pt_print_ref(to, x.reference); fputc(' ', to); pt_print_reason(to, x.reason); break;
    case PT_SIGNAL_ALIVE_ASK: fputs("alive-ask ", to); pt_print_ref(to, x.reference); break;
    default: fputs("alive-say ", to); pt_print_ref(to, x.reference); fputs(x.alive ? " yes" : " no", to);
    }
}

static inline void pt_print_route(FILE *to, pt_pid from, pt_pid target) {
    pt_print_pid(to, from);
    fputs(" -> ", to);
    pt_print_pid(to, target);
}

static inline void pt_print_event(FILE *to, pt_event e) {
    fprintf(to, "%" PRIu64 "@%u ", e.stamp, e.desk);
    switch (e.code) {
    case PT_EVENT_BORN:
        fputs("born ", to); pt_print_pid(to, e.pid);
        if (e.has_peer) { fputs(" by ", to); pt_print_pid(to, e.peer); }
        if (e.has_link) { fputs(" link ", to); pt_print_link(to, e.link); }
        break;
    case PT_EVENT_SAID:
        fputs("said ", to); pt_print_route(to, e.pid, e.peer); fputc(' ', to); pt_print_signal(to, e.signal); break;
    case PT_EVENT_CAME:
        fputs("came ", to); pt_print_route(to, e.peer, e.pid); fputc(' ', to); pt_print_signal(to, e.signal); break;
    case PT_EVENT_TOOK:
        fputs("took ", to); pt_print_pid(to, e.pid); fputc(' ', to); pt_print_pick(to, e.pick); fputs(" = ", to);
        pt_print_item(to, e.item); break;
    case PT_EVENT_FLAG: fputs("flag ", to); pt_print_pid(to, e.pid); fputs(e.on ? " on" : " off", to); break;
    case PT_EVENT_LEFT:
        fputs("left ", to); pt_print_pid(to, e.pid); fputc(' ', to); pt_print_reason(to, e.reason); break;
    default: fputs("refused ", to); pt_print_route(to, e.pid, e.peer);
    }
}

static inline void pt_print_left_over(FILE *to, pt_left_over l) {
    fprintf(to, "left-over %u -> %u ", l.from_desk, l.to_desk);
    pt_print_route(to, l.from, l.to);
    fputc(' ', to);
    pt_print_signal(to, l.signal);
    fprintf(to, " @%" PRIu64, l.stamp);
}

#endif
