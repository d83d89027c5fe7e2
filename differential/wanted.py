"""For each call what it must hand back, and whether what came back is that."""

import calls
import midi
import parts
import rack_values
import records
import steps
import values
import written_parts

RULES = {
    "begin": values.begin, "push": values.push, "finish": values.finish, "make": values.make,
    "half fits": values.half_fits, "card fits": values.card_fits,
    "write card": records.write, "read card": records.read, "make record": records.make_record,
    "start": values.start, "stroke": values.stroke, "stroke in place": values.stroke, "strokes": values.strokes,
    "scan": values.scan, "watch fits": values.watch_fits, "stroke shared": values.stroke_shared,
    "park": records.park, "park behind": records.park_behind, "park narrow": records.park_narrow,
    "park narrow behind": records.park_narrow_behind, "resume": records.resume,
    "report begin": steps.report_begin, "report feed": steps.report_feed,
    "print push": steps.print_push, "print join": steps.print_join, "print cut": steps.print_cut,
    "print tests": steps.print_tests, "key power": steps.key_power,
    "take off": steps.take_off, "enter": steps.enter,
    **rack_values.RULES, "midi": midi.call, **parts.RULES, **written_parts.RULES,
}
assert RULES.keys() == calls.CALLS.keys()


def wanted(name, values_in):
    """What a call with these values must hand back."""
    return RULES[name](*values_in)


def stages_visited(values_in, due, given):
    """Whether the stages were visited is left free: where it is 0 they are as they were."""
    visited = given[1]
    if visited in (0, 1) and (visited or due[3] == values.stages_of(values_in[0])):
        return due[:1] + (visited,) + due[2:]
    return due


def past_the_last(values_in, due, given):
    """What stands past the power for P_k is left free."""
    many = records.stage_count(values_in[2]) + 1
    return (due[0][:many] + given[0][many:],)


# For a call that leaves something free: what must come back, with that as it came.
LEFT_FREE = {"stroke shared": stages_visited, "powers shifts": past_the_last}


def leaves_free(name, values_in):
    """Whether what comes back is not known beforehand; what `stroke shared` hands back is."""
    return name == "powers shifts" and records.stage_count(values_in[2]) + 1 < calls.PRINTS


def difference(name, values_in, given):
    """In which number, byte or length the answer to a call differs from what must come back; None in none."""
    due = wanted(name, values_in)
    if given is not None and given != due and name in LEFT_FREE:
        due = LEFT_FREE[name](values_in, due, given)
    return None if given == due else calls.difference(name, due, given)
