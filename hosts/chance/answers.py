"""The reply to a call: the first refusal that applies, or what the call asks for."""

from __future__ import annotations

from contents import carried_out, suits
from history import ACCESSES, TESTS, Call, History

MOST_OBJECTS, MOST_ACTIONS, MOST_ANCESTORS = 65_535, 1_000_000, 64
# The calls that an action may make while something that it began is live.
WHILE_SUSPENDED = ("begin_sub", "begin_nested", "abort")


def answer(history: History, call: Call) -> str:
    """The text of the reply to a call after these entries."""
    refusal = _of_action(history, call) or _of_access(history, call) or _of_beginning(history, call)
    return f"refused {refusal}" if refusal else _granted(history, call)


def _of_action(history: History, call: Call) -> str:
    """The refusal of a call for the action that makes it."""
    if call.verb in ("declare", "begin_top"):
        return ""
    if call.action not in history.lineage:
        return "NoAction"
    if not history.is_live(call.action):
        return "Over"
    if call.verb not in WHILE_SUSPENDED and history.has_live_child(call.action):
        return "Suspended"
    return "NoSiblings" if call.verb == "abort_others" and history.begun_by[call.action] is None else ""


def _of_access(history: History, call: Call) -> str:
    """The refusal of a call for its object, its operation or its lock. Tests are refused for none of the latter."""
    if call.verb not in ACCESSES:
        return ""
    if call.obj >= len(history.forms):
        return "NoObject"
    if call.verb in TESTS:
        return ""
    if not suits(history.forms[call.obj], len(history.forms), call.operation):
        return "IllTyped"
    return "" if history.may_lock(call.action, call.obj, call.verb == "alter") else "Conflict"


def _of_beginning(history: History, call: Call) -> str:
    """The refusal of a call for a limit."""
    if call.verb == "begin_sub" and len(history.lineage[call.action]) >= MOST_ANCESTORS:
        return "TooDeep"
    if call.verb == "declare" and len(history.forms) >= MOST_OBJECTS:
        return "TooMany"
    return "TooMany" if call.verb.startswith("begin") and len(history.lineage) >= MOST_ACTIONS else ""


def _granted(history: History, call: Call) -> str:
    """The reply to a call that isn't refused."""
    if call.verb == "declare":
        return f"o{len(history.forms)}"
    if call.verb.startswith("begin"):
        return f"a{len(history.lineage)}"
    if call.verb in TESTS:
        return "flag true" if history.may_lock(call.action, call.obj, call.verb == "test_write") else "flag false"
    if call.verb in ACCESSES:
        return carried_out(history.seen(call.obj, call.action), call.operation)[0]
    return "done"


def may_have(history: History, action: int, obj: int, is_writer: bool) -> bool:
    """Whether a test for this lock would get it."""
    test = Call("test_write" if is_writer else "test_read", action, obj)
    return answer(history, test) == "flag true"
