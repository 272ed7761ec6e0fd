"""The structs, codes and calls of the library. Written by bindings/abi.py: change nothing here.

pundewo.h says what they mean. `CODES` and `SUPERVISOR_CODES` are what the library says of its codes.
"""

from __future__ import annotations

import ctypes as c
from enum import IntEnum
from typing import Any


class Code(IntEnum):
    """What calls return."""

    OK = 0
    FULL = 1
    MEMORY = 2
    WORN = 3
    GONE = 4
    MYSELF = 5
    NOPROC = 6
    UNKNOWN = 7
    NOTHING = 8
    EMPTY = 9
    FILLED = 10
    BAD_DESKS = 11
    BAD_SLOTS = 12
    BAD_TOP_VERSION = 13
    BAD_LANE = 14
    BAD_START = 15
    BAD_CODE = 16
    NOT_RUNNING = 17
    WRONG_DESK = 18
    BAD_NAME = 19
    TAKEN = 20
    HAS_NAME = 21
    BAD_PLACES = 22
    CHILD_RUNNING = 23
    CHILD_RESTARTING = 24
    CHILD_PRESENT = 25
    UNLISTED = 26


# The codes of structs, each in its place.
REASON_CODES = ("normal", "kill", "killed", "noproc", "shutdown", "other")
ITEM_CODES = ("user", "exit", "down", "alive")
PICK_CODES = ("kind", "from", "exit-of", "down-of", "alive-of", "any")
SIGNAL_CODES = (
    "message", "link", "unlink", "exit", "link-exit", "monitor", "demonitor", "down", "alive-ask", "alive-say",
)
EVENT_CODES = ("born", "said", "came", "took", "flag", "left", "refused")
NEXT_CODES = ("wait", "wait-until", "proceed", "stop", "running")
JOB_CODES = ("start", "proceed", "item", "timeout", "exit")
STRATEGY_CODES = ("one_for_one", "one_for_all", "rest_for_one")
RESTART_CODES = ("permanent", "transient", "temporary")
SHUTDOWN_CODES = ("infinity", "after", "brutal_kill")
HEARD_CODES = ("answer", "server-down", "late", "not-mine")

CODES = {
    "done": 0, "full": 1, "memory": 2, "worn": 3, "gone": 4, "myself": 5, "noproc": 6, "unknown": 7, "nothing": 8,
    "empty": 9, "filled": 10, "bad_desks": 11, "bad_slots": 12, "bad_top_version": 13, "bad_lane": 14,
    "bad_start": 15, "bad_code": 16, "not_running": 17, "wrong_desk": 18, "bad_name": 19, "taken": 20,
    "has_name": 21, "bad_places": 22, "unlisted": 26, "reason_normal": 0, "reason_kill": 1, "reason_killed": 2,
    "reason_noproc": 3, "reason_shutdown": 4, "reason_other": 5, "item_user": 0, "item_exit": 1, "item_down": 2,
    "item_alive": 3, "pick_kind": 0, "pick_from": 1, "pick_exit_of": 2, "pick_down_of": 3, "pick_alive_of": 4,
    "pick_any": 5, "signal_message": 0, "signal_link": 1, "signal_unlink": 2, "signal_exit": 3,
    "signal_link_exit": 4, "signal_monitor": 5, "signal_demonitor": 6, "signal_down": 7, "signal_alive_ask": 8,
    "signal_alive_say": 9, "event_born": 0, "event_said": 1, "event_came": 2, "event_took": 3, "event_flag": 4,
    "event_left": 5, "event_refused": 6, "next_wait": 0, "next_wait_until": 1, "next_proceed": 2, "next_stop": 3,
    "next_running": 4, "job_start": 0, "job_proceed": 1, "job_item": 2, "job_timeout": 3, "job_exit": 4,
}
SUPERVISOR_CODES = {
    "one_for_one": 0, "one_for_all": 1, "rest_for_one": 2, "permanent": 0, "transient": 1, "temporary": 2,
    "infinity": 0, "after": 1, "brutal_kill": 2, "child_running": 23, "child_restarting": 24, "child_present": 25,
}
CONFIG_DEFAULT = (1024, 4294967295, 64, 0)


class CHandle(c.Structure):
    _fields_ = [("at", c.c_void_p)]


class CPid(c.Structure):
    _fields_ = [("shard", c.c_uint8), ("slot", c.c_uint32), ("version", c.c_uint32)]


class CRef(c.Structure):
    _fields_ = [("desk", c.c_uint8), ("number", c.c_uint64)]


class CIds(c.Structure):
    _fields_ = [("one", CRef), ("has_two", c.c_bool), ("two", CRef)]


class CReason(c.Structure):
    _fields_ = [("code", c.c_uint32), ("number", c.c_uint32)]


class CBody(c.Structure):
    _fields_ = [("kind", c.c_uint32), ("num", c.c_int64), ("has_who", c.c_bool), ("who", CPid)]


class CItem(c.Structure):
    _fields_ = [("code", c.c_uint32), ("alive", c.c_bool), ("pid", CPid), ("reference", CRef), ("reason", CReason),
                ("body", CBody)]


class CPick(c.Structure):
    _fields_ = [("code", c.c_uint32), ("kind", c.c_uint32), ("pid", CPid), ("reference", CRef)]


class CSignal(c.Structure):
    _fields_ = [("code", c.c_uint32), ("alive", c.c_bool), ("reason", CReason), ("reference", CRef), ("ids", CIds),
                ("body", CBody)]


class CEvent(c.Structure):
    _fields_ = [("stamp", c.c_uint64), ("desk", c.c_uint8), ("has_peer", c.c_bool), ("has_link", c.c_bool),
                ("on", c.c_bool), ("code", c.c_uint32), ("pid", CPid), ("peer", CPid), ("link", CRef),
                ("reason", CReason), ("pick", CPick), ("item", CItem), ("signal", CSignal)]


class CLeftOver(c.Structure):
    _fields_ = [("from_desk", c.c_uint8), ("to_desk", c.c_uint8), ("sender", CPid), ("to", CPid),
                ("stamp", c.c_uint64), ("signal", CSignal)]


class CTurned(c.Structure):
    _fields_ = [("posted", c.c_uint64), ("handled", c.c_uint64), ("stopped", c.c_uint32)]


class CAccount(c.Structure):
    _fields_ = [("has_ended", c.c_bool), ("ended", CReason), ("arrived", c.c_uint64), ("taken", c.c_uint64),
                ("waiting", c.c_uint64)]


class CConfig(c.Structure):
    _fields_ = [("slots", c.c_uint32), ("top_version", c.c_uint32), ("lane", c.c_uint32), ("start", c.c_uint64)]


class CLoss(c.Structure):
    _fields_ = [("has_exited", c.c_bool), ("pid", CPid), ("reason", CReason), ("items", c.c_size_t)]


class CNext(c.Structure):
    _fields_ = [("code", c.c_uint32), ("reason", CReason), ("until", c.c_uint64), ("pick", CPick)]


class CJob(c.Structure):
    _fields_ = [("code", c.c_uint32), ("pid", CPid), ("tag", c.c_uint64), ("item", CItem), ("reason", CReason),
                ("was", CNext), ("has_supervisor", c.c_bool), ("again", c.c_bool), ("supervisor", CPid)]


class CAnswer(c.Structure):
    _fields_ = [("pid", CPid), ("next", CNext)]


class CSupervisorSpec(c.Structure):
    _fields_ = [("strategy", c.c_uint32), ("timed", c.c_bool), ("has_parent", c.c_bool), ("parent", CPid),
                ("most", c.c_size_t), ("span", c.c_uint64)]


class CChildSpec(c.Structure):
    _fields_ = [("tag", c.c_uint64), ("restart", c.c_uint32), ("shutdown", c.c_uint32), ("time", c.c_uint64),
                ("elsewhere", c.c_bool)]


class CChild(c.Structure):
    _fields_ = [("has_pid", c.c_bool), ("wanted", c.c_bool), ("pid", CPid), ("restart", c.c_uint32),
                ("shutdown", c.c_uint32), ("time", c.c_uint64)]


class CChildCounts(c.Structure):
    _fields_ = [("specs", c.c_size_t), ("active", c.c_size_t), ("restarting", c.c_size_t)]


class CGaveUp(c.Structure):
    _fields_ = [("tag", c.c_uint64), ("place", c.c_size_t), ("reason", CReason), ("restarts", c.c_size_t),
                ("span", c.c_uint64), ("timed", c.c_bool)]


class CTimer(c.Structure):
    _fields_ = [("at", c.c_uint64), ("number", c.c_uint64)]


class CFired(c.Structure):
    _fields_ = [("timer", CTimer), ("body", c.c_uint64)]


class CName(c.Structure):
    _fields_ = [("letters", c.c_uint8 * 32)]


class CHolder(c.Structure):
    _fields_ = [("pid", CPid), ("monitor", CRef)]


class CCall(c.Structure):
    _fields_ = [("client", CPid), ("server", CPid), ("monitor", CRef), ("has_deadline", c.c_bool), ("waits", c.c_bool),
                ("left_open", c.c_bool), ("deadline", c.c_uint64)]


class CRequest(c.Structure):
    _fields_ = [("sender", CPid), ("asks", c.c_uint32), ("number", c.c_int64)]


class CHeard(c.Structure):
    _fields_ = [("code", c.c_uint32), ("answer", c.c_uint32), ("reason", CReason)]


class CPost(c.Structure):
    _fields_ = [("to", CPid), ("body", CBody)]


class CCodes(c.Structure):
    _fields_ = [("done", c.c_uint32), ("full", c.c_uint32), ("memory", c.c_uint32), ("worn", c.c_uint32),
                ("gone", c.c_uint32), ("myself", c.c_uint32), ("noproc", c.c_uint32), ("unknown", c.c_uint32),
                ("nothing", c.c_uint32), ("empty", c.c_uint32), ("filled", c.c_uint32), ("bad_desks", c.c_uint32),
                ("bad_slots", c.c_uint32), ("bad_top_version", c.c_uint32), ("bad_lane", c.c_uint32),
                ("bad_start", c.c_uint32), ("bad_code", c.c_uint32), ("not_running", c.c_uint32),
                ("wrong_desk", c.c_uint32), ("bad_name", c.c_uint32), ("taken", c.c_uint32), ("has_name", c.c_uint32),
                ("bad_places", c.c_uint32), ("unlisted", c.c_uint32), ("reason_normal", c.c_uint32),
                ("reason_kill", c.c_uint32), ("reason_killed", c.c_uint32), ("reason_noproc", c.c_uint32),
                ("reason_shutdown", c.c_uint32), ("reason_other", c.c_uint32), ("item_user", c.c_uint32),
                ("item_exit", c.c_uint32), ("item_down", c.c_uint32), ("item_alive", c.c_uint32),
                ("pick_kind", c.c_uint32), ("pick_from", c.c_uint32), ("pick_exit_of", c.c_uint32),
                ("pick_down_of", c.c_uint32), ("pick_alive_of", c.c_uint32), ("pick_any", c.c_uint32),
                ("signal_message", c.c_uint32), ("signal_link", c.c_uint32), ("signal_unlink", c.c_uint32),
                ("signal_exit", c.c_uint32), ("signal_link_exit", c.c_uint32), ("signal_monitor", c.c_uint32),
                ("signal_demonitor", c.c_uint32), ("signal_down", c.c_uint32), ("signal_alive_ask", c.c_uint32),
                ("signal_alive_say", c.c_uint32), ("event_born", c.c_uint32), ("event_said", c.c_uint32),
                ("event_came", c.c_uint32), ("event_took", c.c_uint32), ("event_flag", c.c_uint32),
                ("event_left", c.c_uint32), ("event_refused", c.c_uint32), ("next_wait", c.c_uint32),
                ("next_wait_until", c.c_uint32), ("next_proceed", c.c_uint32), ("next_stop", c.c_uint32),
                ("next_running", c.c_uint32), ("job_start", c.c_uint32), ("job_proceed", c.c_uint32),
                ("job_item", c.c_uint32), ("job_timeout", c.c_uint32), ("job_exit", c.c_uint32)]


class CSizes(c.Structure):
    _fields_ = [("pid", c.c_size_t), ("reference", c.c_size_t), ("ids", c.c_size_t), ("reason", c.c_size_t),
                ("body", c.c_size_t), ("item", c.c_size_t), ("pick", c.c_size_t), ("signal", c.c_size_t),
                ("event", c.c_size_t), ("left_over", c.c_size_t), ("turned", c.c_size_t), ("account", c.c_size_t),
                ("config", c.c_size_t), ("next", c.c_size_t), ("job", c.c_size_t), ("answer", c.c_size_t),
                ("loss", c.c_size_t), ("timer", c.c_size_t), ("fired", c.c_size_t), ("name", c.c_size_t),
                ("holder", c.c_size_t), ("codes", c.c_size_t)]


class CAskingAbout(c.Structure):
    _fields_ = [("call", CCall), ("request", CRequest), ("heard", CHeard), ("call_size", c.c_size_t),
                ("request_size", c.c_size_t), ("heard_size", c.c_size_t)]


class CSupervisorCodes(c.Structure):
    _fields_ = [("one_for_one", c.c_uint32), ("one_for_all", c.c_uint32), ("rest_for_one", c.c_uint32),
                ("permanent", c.c_uint32), ("transient", c.c_uint32), ("temporary", c.c_uint32),
                ("infinity", c.c_uint32), ("after", c.c_uint32), ("brutal_kill", c.c_uint32),
                ("supervisor_spec", c.c_size_t), ("child_spec", c.c_size_t), ("child", c.c_size_t),
                ("child_running", c.c_uint32), ("child_restarting", c.c_uint32), ("child_present", c.c_uint32),
                ("child_counts", c.c_size_t), ("gave_up", c.c_size_t)]


_P = c.POINTER

# The calls that return a code, with the types of their parameters.
CALLS: dict[str, list[Any]] = {
    "pt_open": [_P(CHandle), c.c_size_t, CConfig],
    "pt_gather": [_P(CHandle), c.c_size_t, _P(CHandle)],
    "pt_settle": [_P(CHandle), _P(CHandle)],
    "pt_settle_unlisted": [_P(CHandle), _P(CHandle)],
    "pt_quiet_list": [_P(CHandle)],
    "pt_resume": [_P(CHandle), _P(CHandle), c.c_size_t],
    "pt_give_up": [_P(CHandle)],
    "pt_gathered_give_up": [_P(CHandle)],
    "pt_quiet_give_up": [_P(CHandle)],
    "pt_history_give_up": [_P(CHandle)],
    "pt_crew_give_up": [_P(CHandle)],
    "pt_timers_give_up": [_P(CHandle)],
    "pt_names_give_up": [_P(CHandle)],
    "pt_groups_give_up": [_P(CHandle)],
    "pt_door_give_up": [_P(CHandle)],
    "pt_way_in_give_up": [_P(CHandle)],
    "pt_spawn": [_P(CHandle), _P(CPid)],
    "pt_spawn_child": [_P(CHandle), CPid, c.c_bool, _P(CPid)],
    "pt_send": [_P(CHandle), CPid, CPid, CBody],
    "pt_exit_signal": [_P(CHandle), CPid, CPid, CReason],
    "pt_link": [_P(CHandle), CPid, CPid],
    "pt_unlink": [_P(CHandle), CPid, CPid],
    "pt_monitor": [_P(CHandle), CPid, CPid, _P(CRef)],
    "pt_demonitor": [_P(CHandle), CPid, CRef, c.c_bool, _P(c.c_bool)],
    "pt_ask_alive": [_P(CHandle), CPid, CPid, _P(CRef)],
    "pt_trap": [_P(CHandle), CPid, c.c_bool, _P(c.c_bool)],
    "pt_receive": [_P(CHandle), CPid, CPick, _P(CItem)],
    "pt_exit": [_P(CHandle), CPid, CReason],
    "pt_turn": [_P(CHandle), c.c_uint32, _P(CTurned)],
    "pt_letters_out": [_P(CHandle), _P(c.c_uint64)],
    "pt_has_letters": [_P(CHandle), _P(c.c_bool)],
    "pt_look_from": [_P(CHandle), c.c_uint8],
    "pt_next_from": [_P(CHandle), _P(c.c_uint8)],
    "pt_ask": [_P(CHandle), CPid, CPid, c.c_uint32, _P(CCall)],
    "pt_ask_until": [_P(CHandle), CPid, CPid, c.c_uint32, c.c_uint64, _P(CCall)],
    "pt_hear": [_P(CHandle), _P(CCall), CItem, _P(CHeard)],
    "pt_expire": [_P(CHandle), _P(CCall), c.c_uint64, _P(c.c_bool)],
    "pt_request_of": [CItem, _P(CRequest)],
    "pt_is_call": [CPid, CItem, _P(c.c_bool)],
    "pt_reply": [_P(CHandle), CPid, CRequest, c.c_uint32],
    "pt_door_open": [_P(CHandle), _P(CHandle), c.c_uint32],
    "pt_door_post": [_P(CHandle), CPost],
    "pt_way_in_take": [_P(CHandle), _P(CPost)],
    "pt_way_in_len": [_P(CHandle), _P(c.c_size_t)],
    "pt_keep_losses": [_P(CHandle), c.c_bool],
    "pt_loss_at": [_P(CHandle), c.c_size_t, _P(CLoss)],
    "pt_loss_item": [_P(CHandle), c.c_size_t, c.c_size_t, _P(CItem)],
    "pt_next_loss": [_P(CHandle)],
    "pt_crew_open": [_P(CHandle)],
    "pt_crew_spawn": [_P(CHandle), _P(CHandle), c.c_uint64, CNext, _P(CPid)],
    "pt_crew_spawn_child": [_P(CHandle), _P(CHandle), CPid, c.c_bool, c.c_uint64, CNext, _P(CPid)],
    "pt_crew_spawn_supervisor": [_P(CHandle), _P(CHandle), c.c_uint64, CSupervisorSpec, _P(CChildSpec), c.c_size_t,
        _P(CPid)],
    "pt_crew_supervise": [_P(CHandle), CPid, CSupervisorSpec, _P(CChildSpec), c.c_size_t],
    "pt_crew_step": [_P(CHandle), _P(CHandle), c.c_uint32, _P(CJob), c.c_size_t, _P(c.c_size_t), _P(CTurned)],
    "pt_crew_answer": [_P(CHandle), _P(CAnswer), c.c_size_t, _P(c.c_size_t)],
    "pt_crew_note_loss": [_P(CHandle), _P(CHandle), c.c_size_t],
    "pt_crew_set_time": [_P(CHandle), c.c_uint64],
    "pt_crews_go_on": [_P(CHandle), c.c_size_t, _P(CHandle), c.c_size_t, _P(CHandle), _P(CHandle), _P(CHandle)],
    "pt_crew_go_on": [_P(CHandle), _P(CHandle)],
    "pt_crew_begin_again": [_P(CHandle)],
    "pt_crew_next_time": [_P(CHandle), _P(c.c_uint64)],
    "pt_crew_tag": [_P(CHandle), CPid, _P(c.c_uint64)],
    "pt_crew_next": [_P(CHandle), CPid, _P(CNext)],
    "pt_crew_len": [_P(CHandle), _P(c.c_size_t)],
    "pt_crew_queued": [_P(CHandle), _P(c.c_size_t)],
    "pt_crew_is_idle": [_P(CHandle), _P(CHandle), _P(c.c_bool)],
    "pt_crew_refused": [_P(CHandle), _P(c.c_bool)],
    "pt_crew_children": [_P(CHandle), CPid, _P(c.c_size_t)],
    "pt_crew_child": [_P(CHandle), CPid, c.c_size_t, _P(CChild)],
    "pt_crew_start_child": [_P(CHandle), CPid, CChildSpec, _P(c.c_size_t)],
    "pt_crew_terminate_child": [_P(CHandle), CPid, c.c_uint64],
    "pt_crew_restart_child": [_P(CHandle), CPid, c.c_uint64],
    "pt_crew_child_to_start": [_P(CHandle), CPid, _P(c.c_uint64)],
    "pt_crew_child_started": [_P(CHandle), CPid, c.c_uint64, CPid],
    "pt_crew_child_not_started": [_P(CHandle), CPid, c.c_uint64],
    "pt_crew_delete_child": [_P(CHandle), CPid, c.c_uint64, _P(c.c_size_t)],
    "pt_crew_count_children": [_P(CHandle), CPid, _P(CChildCounts)],
    "pt_crew_gave_up": [_P(CHandle), CPid, _P(CGaveUp)],
    "pt_timers_open": [_P(CHandle)],
    "pt_timers_start": [_P(CHandle), c.c_uint64, c.c_uint64, _P(CTimer)],
    "pt_timers_cancel": [_P(CHandle), CTimer],
    "pt_timers_pop_due": [_P(CHandle), c.c_uint64, _P(CFired)],
    "pt_timers_peek_due": [_P(CHandle), c.c_uint64, _P(CFired)],
    "pt_timers_next": [_P(CHandle), _P(c.c_uint64)],
    "pt_timers_get": [_P(CHandle), CTimer, _P(c.c_uint64)],
    "pt_timers_len": [_P(CHandle), _P(c.c_size_t)],
    "pt_names_open": [_P(CHandle)],
    "pt_names_register": [_P(CHandle), c.c_char_p, c.c_size_t, CPid, CRef],
    "pt_names_check": [_P(CHandle), c.c_char_p, c.c_size_t, CPid],
    "pt_names_whereis": [_P(CHandle), c.c_char_p, c.c_size_t, _P(CPid)],
    "pt_names_unregister": [_P(CHandle), c.c_char_p, c.c_size_t, _P(CHolder)],
    "pt_names_forget": [_P(CHandle), CPid, _P(CName)],
    "pt_names_name_of": [_P(CHandle), CPid, _P(CName)],
    "pt_names_len": [_P(CHandle), _P(c.c_size_t)],
    "pt_groups_open": [_P(CHandle)],
    "pt_groups_join": [_P(CHandle), c.c_uint64, CPid, CRef, _P(CRef)],
    "pt_groups_leave": [_P(CHandle), c.c_uint64, CPid, _P(c.c_bool), _P(CRef)],
    "pt_groups_forget": [_P(CHandle), CPid, _P(CRef)],
    "pt_groups_monitor_of": [_P(CHandle), CPid, _P(CRef)],
    "pt_groups_times": [_P(CHandle), c.c_uint64, CPid, _P(c.c_uint64)],
    "pt_groups_len": [_P(CHandle), c.c_uint64, _P(c.c_size_t)],
    "pt_groups_member_at": [_P(CHandle), c.c_uint64, c.c_size_t, _P(CPid)],
    "pt_groups_group_at": [_P(CHandle), CPid, c.c_size_t, _P(c.c_uint64)],
    "pt_clock": [_P(CHandle), _P(c.c_uint64)],
    "pt_number": [_P(CHandle), _P(c.c_uint8)],
    "pt_alive": [_P(CHandle), CPid, _P(c.c_bool)],
    "pt_knows": [_P(CHandle), CPid, _P(c.c_bool)],
    "pt_pending": [_P(CHandle), _P(c.c_uint64)],
    "pt_vacant": [_P(CHandle), _P(CPid)],
    "pt_waiting": [_P(CHandle), CPid, _P(c.c_size_t)],
    "pt_peek": [_P(CHandle), CPid, c.c_size_t, _P(CItem)],
    "pt_linked": [_P(CHandle), CPid, CPid, _P(CIds)],
    "pt_link_count": [_P(CHandle), CPid, _P(c.c_size_t)],
    "pt_link_at": [_P(CHandle), CPid, c.c_size_t, _P(CPid), _P(CIds)],
    "pt_monitor_count": [_P(CHandle), CPid, _P(c.c_size_t)],
    "pt_monitor_at": [_P(CHandle), CPid, c.c_size_t, _P(CRef), _P(CPid)],
    "pt_watcher_count": [_P(CHandle), CPid, _P(c.c_size_t)],
    "pt_watcher_at": [_P(CHandle), CPid, c.c_size_t, _P(CRef), _P(CPid)],
    "pt_traps": [_P(CHandle), CPid, _P(c.c_bool)],
    "pt_lives_in": [_P(CHandle), c.c_uint32, _P(CPid)],
    "pt_event_count": [_P(CHandle), _P(c.c_size_t)],
    "pt_event_at": [_P(CHandle), c.c_size_t, _P(CEvent)],
    "pt_next_woken": [_P(CHandle), _P(c.c_size_t), _P(CPid)],
    "pt_gathered_desks": [_P(CHandle), _P(c.c_uint8)],
    "pt_gathered_history": [_P(CHandle), _P(CHandle)],
    "pt_quiet_history": [_P(CHandle), _P(CHandle)],
    "pt_quiet_desks": [_P(CHandle), _P(c.c_uint8)],
    "pt_quiet_handled": [_P(CHandle), _P(c.c_uint64)],
    "pt_quiet_pid_count": [_P(CHandle), _P(c.c_size_t)],
    "pt_quiet_pid_at": [_P(CHandle), c.c_size_t, _P(CPid)],
    "pt_quiet_account": [_P(CHandle), CPid, _P(CAccount)],
    "pt_quiet_linked": [_P(CHandle), CPid, CPid, _P(CIds)],
    "pt_quiet_kept": [_P(CHandle), CPid, CRef, _P(c.c_bool)],
    "pt_quiet_watching": [_P(CHandle), CPid, CRef, _P(c.c_bool)],
    "pt_history_count": [_P(CHandle), _P(c.c_size_t)],
    "pt_history_at": [_P(CHandle), c.c_size_t, _P(CEvent)],
    "pt_history_left_count": [_P(CHandle), _P(c.c_size_t)],
    "pt_history_left_at": [_P(CHandle), c.c_size_t, _P(CLeftOver)],
}

# What the library says of itself.
ABOUT: dict[str, list[Any]] = {
    "pt_about_codes": [_P(CCodes)],
    "pt_about_sizes": [_P(CSizes)],
    "pt_about_event": [_P(CEvent)],
    "pt_about_left_over": [_P(CLeftOver)],
    "pt_about_turned": [_P(CTurned)],
    "pt_about_account": [_P(CAccount)],
    "pt_about_loss": [_P(CLoss)],
    "pt_about_fired": [_P(CFired)],
    "pt_about_holder": [_P(CHolder)],
    "pt_about_config": [_P(CConfig)],
    "pt_about_job": [_P(CJob)],
    "pt_about_answer": [_P(CAnswer)],
    "pt_about_asking": [_P(CAskingAbout)],
    "pt_about_post": [_P(CPost), _P(c.c_size_t)],
    "pt_about_supervisors": [_P(CSupervisorCodes)],
    "pt_about_supervisor_spec": [_P(CSupervisorSpec)],
    "pt_about_child_spec": [_P(CChildSpec)],
    "pt_about_child": [_P(CChild)],
    "pt_about_child_counts": [_P(CChildCounts)],
    "pt_about_gave_up": [_P(CGaveUp)],
}
