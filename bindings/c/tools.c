/* Timers, names and groups: a process of a desk gets a message at a time, is found by its name until it exits, and is in
 * its groups until then. */
#include <assert.h>
#include <stdio.h>
#include <string.h>

#include "pundewo.h"

static pt_timers timers = PT_NO_TIMERS;
static pt_names names = PT_NO_NAMES;
static pt_groups groups = PT_NO_GROUPS;

static bool is_pid(pt_pid a, pt_pid b) {
    return a.shard == b.shard && a.slot == b.slot && a.version == b.version;
}

/* On empty handles each call answers PT_EMPTY, and leaves what it would write. */
static void empty(void) {
    pt_timer timer = {5, 6}, was = timer;
    pt_fired fired;
    pt_pid pid = {1, 2, 3};
    pt_ref ref = {0, 1};
    pt_name name;
    pt_holder holder;
    uint64_t number = 7;
    size_t count = 8;
    assert(pt_timers_give_up(&timers) == PT_EMPTY && pt_timers_start(&timers, 1, 2, &timer) == PT_EMPTY);
    assert(pt_timers_cancel(&timers, timer) == PT_EMPTY && pt_timers_pop_due(&timers, 9, &fired) == PT_EMPTY);
    assert(pt_timers_peek_due(&timers, 9, &fired) == PT_EMPTY && pt_timers_next(&timers, &number) == PT_EMPTY);
    assert(pt_timers_get(&timers, timer, &number) == PT_EMPTY && pt_timers_len(&timers, &count) == PT_EMPTY);
    assert(pt_names_give_up(&names) == PT_EMPTY && pt_names_register(&names, "", 0, pid, ref) == PT_EMPTY);
    assert(pt_names_check(&names, "", 0, pid) == PT_EMPTY && pt_names_whereis(&names, "", 0, &pid) == PT_EMPTY);
    assert(pt_names_unregister(&names, "", 0, &holder) == PT_EMPTY && pt_names_forget(&names, pid, &name) == PT_EMPTY);
    assert(pt_names_name_of(&names, pid, &name) == PT_EMPTY && pt_names_len(&names, &count) == PT_EMPTY);
    bool last = true;
    assert(pt_groups_give_up(&groups) == PT_EMPTY && pt_groups_join(&groups, 1, pid, ref, &ref) == PT_EMPTY);
    assert(pt_groups_leave(&groups, 1, pid, &last, &ref) == PT_EMPTY && last && pt_groups_forget(&groups, pid, &ref) == PT_EMPTY);
    assert(pt_groups_monitor_of(&groups, pid, &ref) == PT_EMPTY && pt_groups_times(&groups, 1, pid, &number) == PT_EMPTY);
    assert(pt_groups_len(&groups, 1, &count) == PT_EMPTY && pt_groups_member_at(&groups, 1, 0, &pid) == PT_EMPTY);
    assert(pt_groups_group_at(&groups, pid, 0, &number) == PT_EMPTY && ref.desk == 0 && ref.number == 1);
    assert(timer.at == was.at && timer.number == was.number && number == 7 && count == 8);
    assert(pid.shard == 1 && pid.slot == 2 && pid.version == 3);
}

/* Timers fire in the order of their times, and of one time in the order in which they were started; each once. */
static void timing(void) {
    pt_timer ring, poll, late, none = {10, 99};
    pt_fired fired;
    uint64_t number;
    size_t count;
    assert(pt_timers_open(&timers) == PT_OK && pt_timers_open(&timers) == PT_FILLED);
    assert(pt_timers_next(&timers, &number) == PT_NOTHING && pt_timers_pop_due(&timers, UINT64_MAX, &fired) == PT_NOTHING);
    assert(pt_timers_start(&timers, 30, 100, &ring) == PT_OK && ring.at == 30 && ring.number == 0);
    assert(pt_timers_start(&timers, 10, 101, &poll) == PT_OK && poll.at == 10 && poll.number == 1);
    assert(pt_timers_start(&timers, 30, 102, &late) == PT_OK && late.at == 30 && late.number == 2);
    assert(pt_timers_len(&timers, &count) == PT_OK && count == 3);
    assert(pt_timers_next(&timers, &number) == PT_OK && number == 10);
    assert(pt_timers_get(&timers, late, &number) == PT_OK && number == 102);
    assert(pt_timers_get(&timers, none, &number) == PT_NOTHING && number == 102);
    assert(pt_timers_pop_due(&timers, 9, &fired) == PT_NOTHING);
    assert(pt_timers_peek_due(&timers, 12, &fired) == PT_OK && fired.timer.number == 1 && fired.body == 101);
    assert(pt_timers_pop_due(&timers, 12, &fired) == PT_OK && fired.timer.at == 10 && fired.body == 101);
    assert(pt_timers_pop_due(&timers, 12, &fired) == PT_NOTHING && pt_timers_peek_due(&timers, 12, &fired) == PT_NOTHING);
    assert(pt_timers_cancel(&timers, poll) == PT_NOTHING && pt_timers_cancel(&timers, none) == PT_NOTHING);
    printf("timer %llu is due at %llu\n", (unsigned long long)late.number, (unsigned long long)late.at);
    assert(pt_timers_pop_due(&timers, 30, &fired) == PT_OK && fired.timer.number == 0 && fired.body == 100);
    assert(pt_timers_cancel(&timers, late) == PT_OK && pt_timers_cancel(&timers, late) == PT_NOTHING);
    assert(pt_timers_pop_due(&timers, UINT64_MAX, &fired) == PT_NOTHING);
    assert(pt_timers_len(&timers, &count) == PT_OK && count == 0);
}

static void is_called(pt_pid p, const char *text) {
    pt_name name, padded = {{0}};
    assert(pt_names_name_of(&names, p, &name) == PT_OK);
    memcpy(padded.letters, text, strlen(text));
    assert(memcmp(name.letters, padded.letters, sizeof name.letters) == 0);
}

/* Bytes that are no name are refused, and nothing else is looked at. */
static void no_names(pt_pid p) {
    static const char *const bad[] = {"", "1st", "_x", "line-1", "a b", "abcdefghijklmnopqrstuvwxyz0123456", "\xc3\xa4"};
    pt_pid pid = {9, 9, 9};
    pt_holder holder;
    for (size_t k = 0; k < sizeof bad / sizeof *bad; k++) {
        size_t length = strlen(bad[k]);
        assert(pt_names_register(&names, bad[k], length, p, (pt_ref){0, 1}) == PT_BAD_NAME);
        assert(pt_names_check(&names, bad[k], length, p) == PT_BAD_NAME);
        assert(pt_names_whereis(&names, bad[k], length, &pid) == PT_BAD_NAME && pid.shard == 9);
        assert(pt_names_unregister(&names, bad[k], length, &holder) == PT_BAD_NAME);
    }
    assert(pt_names_register(&names, "a\0b", 3, p, (pt_ref){0, 1}) == PT_BAD_NAME);
}

/* The processes with a name are monitored, and a DOWN frees the name. */
static void naming(void) {
    pt_desk desk = PT_NO_DESK;
    pt_pid keeper, line, other, found = {0};
    pt_ref monitor;
    pt_item item;
    pt_turned turned;
    pt_name name;
    pt_holder holder;
    size_t count;
    const char *longest = "abcdefghijklmnopqrstuvwxyz_01234";
    assert(pt_open(&desk, 1, (pt_config){8, UINT32_MAX, 8, 0}) == PT_OK);
    assert(pt_spawn(&desk, &keeper) == PT_OK && pt_spawn(&desk, &line) == PT_OK && pt_spawn(&desk, &other) == PT_OK);
    assert(pt_names_open(&names) == PT_OK && pt_names_open(&names) == PT_FILLED);
    no_names(line);
    assert(pt_names_whereis(&names, "line_12", 7, &found) == PT_NOTHING);
    assert(pt_names_check(&names, "line_12", 7, line) == PT_OK && pt_monitor(&desk, keeper, line, &monitor) == PT_OK);
    assert(pt_names_register(&names, "line_12", 7, line, monitor) == PT_OK);
    assert(pt_names_whereis(&names, "line_12", 7, &found) == PT_OK && is_pid(found, line));
    is_called(line, "line_12");
    assert(pt_names_register(&names, "line_12", 7, other, monitor) == PT_TAKEN);
    assert(pt_names_check(&names, "line_12", 7, other) == PT_TAKEN);
    assert(pt_names_register(&names, "line_13", 7, line, monitor) == PT_HAS_NAME);
    assert(pt_names_check(&names, "line_13", 7, line) == PT_HAS_NAME);
    assert(pt_names_register(&names, longest, 32, other, (pt_ref){3, 4}) == PT_OK);
    is_called(other, longest);
    assert(pt_names_len(&names, &count) == PT_OK && count == 2);
    assert(pt_turn(&desk, 16, &turned) == PT_OK && pt_exit(&desk, line, (pt_reason){PT_NORMAL, 0}) == PT_OK);
    assert(pt_turn(&desk, 16, &turned) == PT_OK && turned.handled == 1);
    assert(pt_receive(&desk, keeper, (pt_pick){.code = PT_PICK_ANY}, &item) == PT_OK && item.code == PT_ITEM_DOWN);
    assert(pt_names_forget(&names, item.pid, &name) == PT_OK && strcmp(name.letters, "line_12") == 0);
    printf("%s is free again\n", name.letters);
    assert(pt_names_forget(&names, item.pid, &name) == PT_NOTHING && pt_names_name_of(&names, line, &name) == PT_NOTHING);
    assert(pt_names_whereis(&names, "line_12", 7, &found) == PT_NOTHING);
    assert(pt_names_unregister(&names, longest, 32, &holder) == PT_OK && is_pid(holder.pid, other));
    assert(holder.monitor.desk == 3 && holder.monitor.number == 4);
    assert(pt_names_unregister(&names, longest, 32, &holder) == PT_NOTHING);
    assert(pt_names_len(&names, &count) == PT_OK && count == 0 && pt_give_up(&desk) == PT_OK);
}

/* A process is as often in a group as it joined less its leaves, and has the monitor of its first place until its last. */
static void joins(pt_pid p, pt_ref monitor) {
    pt_ref other = {7, 7}, kept;
    pt_pid member = {9, 9, 9};
    uint64_t number;
    size_t count;
    bool last;
    assert(pt_groups_monitor_of(&groups, p, &kept) == PT_NOTHING);
    assert(pt_groups_join(&groups, 5, p, monitor, &kept) == PT_OK && kept.number == monitor.number);
    assert(pt_groups_join(&groups, 5, p, other, &kept) == PT_OK && kept.number == monitor.number);
    assert(pt_groups_join(&groups, UINT64_MAX, p, other, &kept) == PT_OK && kept.number == monitor.number);
    assert(pt_groups_times(&groups, 5, p, &number) == PT_OK && number == 2);
    assert(pt_groups_times(&groups, 6, p, &number) == PT_OK && number == 0);
    assert(pt_groups_group_at(&groups, p, 0, &number) == PT_OK && number == 5);
    assert(pt_groups_group_at(&groups, p, 1, &number) == PT_OK && number == UINT64_MAX);
    assert(pt_groups_group_at(&groups, p, 2, &number) == PT_NOTHING && number == UINT64_MAX);
    assert(pt_groups_len(&groups, 5, &count) == PT_OK && count == 1);
    assert(pt_groups_member_at(&groups, 5, 0, &member) == PT_OK && is_pid(member, p));
    assert(pt_groups_member_at(&groups, 5, 1, &member) == PT_NOTHING && is_pid(member, p));
    assert(pt_groups_leave(&groups, 6, p, &last, &other) == PT_NOTHING);
    for (int k = 0; k < 2; k++)
        assert(pt_groups_leave(&groups, 5, p, &last, &other) == PT_OK && !last && other.number == 7);
    assert(pt_groups_leave(&groups, 5, p, &last, &other) == PT_NOTHING && !last && other.number == 7);
    assert(pt_groups_leave(&groups, UINT64_MAX, p, &last, &other) == PT_OK && last && other.number == monitor.number);
    assert(pt_groups_monitor_of(&groups, p, &kept) == PT_NOTHING && pt_groups_len(&groups, 5, &count) == PT_OK && count == 0);
}

/* The processes of a group are monitored, each once, and a DOWN takes a process out of all its groups. */
static void grouping(void) {
    pt_desk desk = PT_NO_DESK;
    pt_pid keeper, line, member;
    pt_ref monitor, kept;
    pt_item item;
    pt_turned turned;
    size_t count;
    assert(pt_open(&desk, 1, (pt_config){8, UINT32_MAX, 8, 0}) == PT_OK);
    assert(pt_spawn(&desk, &keeper) == PT_OK && pt_spawn(&desk, &line) == PT_OK);
    assert(pt_groups_open(&groups) == PT_OK && pt_groups_open(&groups) == PT_FILLED);
    assert(pt_monitor(&desk, keeper, line, &monitor) == PT_OK);
    joins(line, monitor);
    for (uint64_t group = 1; group <= 3; group++)
        assert(pt_groups_join(&groups, group, line, monitor, &kept) == PT_OK);
    assert(pt_groups_join(&groups, 2, keeper, (pt_ref){3, 4}, &kept) == PT_OK && kept.number == 4);
    assert(pt_turn(&desk, 16, &turned) == PT_OK && pt_exit(&desk, line, (pt_reason){PT_NORMAL, 0}) == PT_OK);
    assert(pt_turn(&desk, 16, &turned) == PT_OK && turned.handled == 1);
    assert(pt_receive(&desk, keeper, (pt_pick){.code = PT_PICK_ANY}, &item) == PT_OK && item.code == PT_ITEM_DOWN);
    assert(pt_groups_monitor_of(&groups, item.pid, &kept) == PT_OK && kept.number == item.reference.number);
    assert(pt_groups_forget(&groups, item.pid, &kept) == PT_OK && kept.number == monitor.number);
    assert(pt_groups_forget(&groups, item.pid, &kept) == PT_NOTHING && kept.number == monitor.number);
    assert(pt_groups_len(&groups, 1, &count) == PT_OK && count == 0 && pt_groups_len(&groups, 2, &count) == PT_OK && count == 1);
    assert(pt_groups_member_at(&groups, 2, 0, &member) == PT_OK && is_pid(member, keeper));
    printf("one member of the group is left\n");
    assert(pt_give_up(&desk) == PT_OK);
}

/* A message at a time: the body of a timer is a number of the program's own. */
static void messages(void) {
    pt_desk desk = PT_NO_DESK;
    pt_pid p;
    pt_timer timer;
    pt_fired fired;
    pt_item item;
    pt_turned turned;
    assert(pt_open(&desk, 1, (pt_config){8, UINT32_MAX, 8, 0}) == PT_OK && pt_spawn(&desk, &p) == PT_OK);
    for (uint64_t at = 3; at > 0; at--)
        assert(pt_timers_start(&timers, at, at * 10, &timer) == PT_OK);
    for (uint64_t now = 0; now <= 3; now++)
        while (pt_timers_pop_due(&timers, now, &fired) == PT_OK)
            assert(pt_send(&desk, p, p, (pt_body){.kind = 1, .num = (int64_t)fired.body}) == PT_OK);
    assert(pt_turn(&desk, 16, &turned) == PT_OK && turned.handled == 3);
    while (pt_receive(&desk, p, (pt_pick){.code = PT_PICK_ANY}, &item) == PT_OK)
        printf("message %lld\n", (long long)item.body.num);
    assert(pt_give_up(&desk) == PT_OK);
}

int main(void) {
    empty();
    timing();
    naming();
    grouping();
    messages();
    assert(pt_timers_give_up(&timers) == PT_OK && pt_timers_give_up(&timers) == PT_EMPTY);
    assert(pt_names_give_up(&names) == PT_OK && pt_names_give_up(&names) == PT_EMPTY);
    assert(pt_groups_give_up(&groups) == PT_OK && pt_groups_give_up(&groups) == PT_EMPTY);
    return 0;
}
