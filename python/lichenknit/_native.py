"""The structs and functions of lichenknit.h, by their names there. The gate compares them with the header."""

import ctypes
from ctypes import POINTER, Structure, c_char_p, c_size_t, c_uint8, c_uint16, c_uint32, c_uint64, c_void_p


class sci_op(Structure):
    _fields_ = [("act", c_uint8), ("line", c_uint8), ("word", c_uint8), ("reserved", c_uint8), ("arg", c_uint64), ("datum", c_uint64)]


class sci_event(Structure):
    _fields_ = [("kind", c_uint8), ("node", c_uint8), ("from", c_uint8), ("line", c_uint8), ("ask", c_uint8), ("op", sci_op)]


class sci_packet(Structure):
    _fields_ = [("target", c_uint16), ("command", c_uint16), ("source", c_uint16), ("control", c_uint16), ("line", c_uint64),
                ("identifier", c_uint16), ("has_contents", c_uint16), ("reserved", c_uint32), ("version", c_uint64), ("words", c_uint64 * 8)]


class sci_stamped(Structure):
    _fields_ = [("version", c_uint64), ("words", c_uint64 * 8)]


class sci_entry(Structure):
    _fields_ = [("node", c_uint8), ("has_word", c_uint8), ("reserved", c_uint16), ("serial", c_uint32), ("op", sci_op), ("word", c_uint64),
                ("version", c_uint64)]


class sci_held(Structure):
    _fields_ = [("state", c_uint8), ("waits", c_uint8), ("has_contents", c_uint8), ("reserved", c_uint8), ("forward", c_uint16),
                ("backward", c_uint16), ("contents", sci_stamped)]


class sci_home(Structure):
    _fields_ = [("state", c_uint8), ("has_contents", c_uint8), ("head", c_uint16), ("reserved", c_uint32), ("contents", sci_stamped)]


class sci_seen(Structure):
    _fields_ = [("has_packet", c_uint32), ("has_entry", c_uint32), ("packet", sci_packet), ("entry", sci_entry)]


class sci_want(Structure):
    _fields_ = [("kind", c_uint8), ("line", c_uint8), ("ask", c_uint8), ("reserved", c_uint8)]


class sci_dead(Structure):
    _fields_ = [("count", c_uint32), ("place", c_uint32), ("obstacle", c_uint32)]


class sci_verdict(Structure):
    _fields_ = [("kind", c_uint32), ("line", c_uint32), ("has_entry", c_uint32), ("node", c_uint32), ("serial", c_uint32)]


class sci_text_fault(Structure):
    _fields_ = [("line", c_uint64), ("kind", c_uint32), ("reserved", c_uint32)]


class sci_access(Structure):
    _fields_ = [("processor", c_uint8), ("kind", c_uint8), ("reserved", c_uint16), ("reserved2", c_uint32), ("address", c_uint64),
                ("read", c_uint64), ("wrote", c_uint64), ("begin", c_uint64), ("end", c_uint64), ("id", c_uint64)]


class sci_last_word(Structure):
    _fields_ = [("address", c_uint64), ("word", c_uint64)]


class sci_trace_way(Structure):
    _fields_ = [("timed", c_uint32), ("ordered", c_uint32), ("limit", c_uint64)]


class sci_judgement(Structure):
    _fields_ = [("kind", c_uint32), ("freedom", c_uint32), ("consistency", c_uint32), ("witness", c_uint32), ("address", c_uint64),
                ("named", c_uint64)]


class sci_machine(Structure):
    _fields_ = [("at", c_void_p), ("live", c_uint32)]


class sci_node(Structure):
    _fields_ = [("at", c_void_p), ("live", c_uint32)]


class sci_logs(Structure):
    _fields_ = [("at", c_void_p), ("live", c_uint32)]


class sci_scoreboard(Structure):
    _fields_ = [("at", c_void_p), ("live", c_uint32)]


# A buffer of the caller's is a pointer and a length; bytes that are only read come as bytes.
MACHINE, NODE, LOGS, SCOREBOARD = POINTER(sci_machine), POINTER(sci_node), POINTER(sci_logs), POINTER(sci_scoreboard)
U8, U32, U64, SIZE = POINTER(c_uint8), POINTER(c_uint32), POINTER(c_uint64), POINTER(c_size_t)
PACKET_BYTES, PACKET_WORDS = c_uint8 * 88, c_uint64 * 11

# What each function takes. It answers a status, but for those of ANSWERS.
FUNCTIONS = {
    "sci_version": (),
    "sci_layout": (c_uint64 * 8,),
    "sci_layout_more": (c_uint64 * 9,),
    "sci_status_text": (c_uint32,),
    "sci_status_name": (c_uint32,),
    "sci_command_name": (c_uint32,),
    "sci_state_name": (c_uint32,),
    "sci_home_state_name": (c_uint32,),
    "sci_obstacle_name": (c_uint32,),
    "sci_verdict_name": (c_uint32,),
    "sci_packet_decode": (c_char_p, c_size_t, POINTER(sci_packet), SIZE),
    "sci_packet_encode": (POINTER(sci_packet), PACKET_BYTES, SIZE),
    "sci_packet_from_words": (U64, c_size_t, POINTER(sci_packet), SIZE),
    "sci_packet_to_words": (POINTER(sci_packet), PACKET_WORDS, SIZE),
    "sci_packet_write": (POINTER(sci_packet), U8, c_size_t, SIZE),
    "sci_event_write": (POINTER(sci_event), U8, c_size_t, SIZE),
    "sci_size_write": (c_uint8, c_uint8, c_uint8, U8, c_size_t, SIZE),
    "sci_entry_write": (POINTER(sci_entry), U8, c_size_t, SIZE),
    "sci_machine_open": (MACHINE, c_uint8, c_uint8, c_uint8, c_uint32),
    "sci_machine_close": (MACHINE,),
    "sci_machine_step": (MACHINE, POINTER(sci_event)),
    "sci_machine_step_seen": (MACHINE, POINTER(sci_event), POINTER(sci_seen)),
    "sci_machine_obstacle": (MACHINE, POINTER(sci_event), U32),
    "sci_machine_replay": (MACHINE, c_char_p, c_size_t, c_uint32, POINTER(sci_dead), POINTER(sci_text_fault)),
    "sci_machine_clone": (MACHINE, MACHINE),
    "sci_machine_held": (MACHINE, c_uint8, c_uint8, POINTER(sci_held)),
    "sci_machine_home": (MACHINE, c_uint8, c_uint8, POINTER(sci_home)),
    "sci_machine_pending": (MACHINE, c_uint8, c_uint8, POINTER(sci_op), U32),
    "sci_machine_answer": (MACHINE, c_uint8, POINTER(sci_packet)),
    "sci_machine_packet": (MACHINE, c_uint32, c_uint8, c_uint8, c_size_t, POINTER(sci_packet)),
    "sci_machine_sharing": (MACHINE, c_uint8, U8, c_size_t, SIZE),
    "sci_machine_settle": (MACHINE, U32),
    "sci_machine_last": (MACHINE, c_uint8, POINTER(sci_stamped)),
    "sci_machine_authority": (MACHINE, c_uint8, U8),
    "sci_machine_logs": (MACHINE, LOGS),
    "sci_node_open": (NODE, c_uint8, c_uint8, c_uint8, c_uint8, c_uint32),
    "sci_node_close": (NODE,),
    "sci_node_clone": (NODE, NODE),
    "sci_node_start_log": (NODE, c_uint32),
    "sci_node_issue": (NODE, POINTER(sci_op), U32),
    "sci_node_perform": (NODE, c_uint8, POINTER(sci_entry)),
    "sci_node_ask": (NODE, c_uint8, c_uint8, PACKET_BYTES, SIZE),
    "sci_node_take_answer": (NODE, PACKET_BYTES, SIZE),
    "sci_node_serve": (NODE, c_char_p, c_size_t),
    "sci_node_refuse": (NODE, c_char_p, c_size_t),
    "sci_node_accept": (NODE, c_char_p, c_size_t),
    "sci_node_turn": (NODE, POINTER(sci_packet), c_size_t, U8, c_size_t, POINTER(sci_packet), c_size_t, SIZE, POINTER(sci_want)),
    "sci_node_begin_turn": (NODE,),
    "sci_node_next": (NODE, POINTER(sci_want)),
    "sci_node_decide": (NODE, c_char_p, c_size_t, U32),
    "sci_node_first_sender": (NODE, U8),
    "sci_node_held": (NODE, c_uint8, POINTER(sci_held)),
    "sci_node_home_state": (NODE, c_uint8, POINTER(sci_home)),
    "sci_node_answer": (NODE, POINTER(sci_packet)),
    "sci_node_pending": (NODE, c_uint8, POINTER(sci_op), U32),
    "sci_node_home": (NODE, c_uint8, POINTER(sci_stamped)),
    "sci_node_is_at_rest": (NODE, U32),
    "sci_logs_open": (LOGS, c_uint8, c_uint8),
    "sci_logs_close": (LOGS,),
    "sci_logs_push": (LOGS, POINTER(sci_entry)),
    "sci_logs_set_last": (LOGS, c_uint8, POINTER(sci_stamped)),
    "sci_logs_last": (LOGS, c_uint8, POINTER(sci_stamped)),
    "sci_logs_set_first": (LOGS, c_uint8, POINTER(sci_stamped)),
    "sci_logs_first": (LOGS, c_uint8, POINTER(sci_stamped)),
    "sci_logs_go_on": (LOGS,),
    "sci_logs_size": (LOGS, U8, U8),
    "sci_logs_count": (LOGS, c_uint8, SIZE),
    "sci_logs_entry": (LOGS, c_uint8, c_size_t, POINTER(sci_entry)),
    "sci_logs_audit": (LOGS, POINTER(sci_verdict)),
    "sci_logs_audit_cut_off": (LOGS, POINTER(sci_verdict)),
    "sci_logs_explain": (LOGS, U8, c_size_t, SIZE),
    "sci_logs_wanted": (LOGS, U64, U32, POINTER(sci_entry)),
    "sci_logs_order": (LOGS, U32, POINTER(sci_entry), c_size_t, SIZE),
    "sci_logs_order_kind": (LOGS, U32),
    "sci_logs_read": (LOGS, c_char_p, c_size_t, POINTER(sci_text_fault)),
    "sci_logs_write": (LOGS, U8, c_size_t, SIZE),
    "sci_scoreboard_open": (SCOREBOARD, c_uint8, c_uint8),
    "sci_scoreboard_close": (SCOREBOARD,),
    "sci_scoreboard_begin": (SCOREBOARD, c_uint8, POINTER(sci_stamped)),
    "sci_scoreboard_contents": (SCOREBOARD, c_uint8, POINTER(sci_stamped)),
    "sci_scoreboard_tell": (SCOREBOARD, POINTER(sci_entry), POINTER(sci_verdict)),
    "sci_trace_judge": (POINTER(sci_access), c_size_t, POINTER(sci_last_word), c_size_t, POINTER(sci_trace_way), POINTER(sci_judgement),
                        U64, c_size_t),
}
ANSWERS = {"sci_layout": None, "sci_layout_more": None, "sci_status_text": c_char_p, **{it: c_char_p for it in FUNCTIONS if it.endswith("_name")}}
LAYOUT = (sci_op, sci_event, sci_packet, sci_stamped, sci_entry, sci_verdict, sci_text_fault, sci_machine, sci_held, sci_home, sci_seen, sci_want,
          sci_dead, sci_access, sci_last_word, sci_trace_way, sci_judgement)


def opened(path):
    """The library of this path, with its signatures. It has to have the structs that stand here."""
    library = ctypes.CDLL(path)
    for name, takes in FUNCTIONS.items():
        function = getattr(library, name)
        function.argtypes, function.restype = takes, ANSWERS.get(name, c_uint32)
    sizes, more = (c_uint64 * 8)(), (c_uint64 * 9)()
    library.sci_layout(sizes)
    library.sci_layout_more(more)
    here = [ctypes.sizeof(it) for it in LAYOUT]
    if [*sizes, *more] != here:
        raise ImportError(f"{path} has structs of {[*sizes, *more]} bytes, and this package of {here}")
    return library
