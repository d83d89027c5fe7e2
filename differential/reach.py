#!/usr/bin/env python3
"""Which public function of the library each call of the driver makes. `unreached` says what the table leaves out: a public
function that no call makes, so that no case can try it, or one that is no longer there.

    reach.py        prints what is left out; nothing where all is reached
"""

import os
import re
import sys

sys.dont_write_bytecode = True

import calls
import programs

# For each call the functions that it makes, itself or by another function of the library, as crate::function or
# crate::Type::function.
MADE = {
    # The maker, and cards.
    "begin": "signature::Builder::begin",
    "push": "signature::Builder::push",
    "finish": "signature::Builder::finish",
    "half fits": "signature::Builder::fits",
    "card fits": "signature::Signature::fits",
    "levels": "signature::levels",
    "prefix length": "signature::prefix_length",
    "running fits": "signature::running_fits",
    "write card": "card_record::write_signature",
    "read card": "card_record::read_signature",
    "make": "card_core::make",
    "make record": "card_core::write_card",
    "key of": "card_core::key_of",
    # Watches, and their records. A reference to a watch can be lent by `in_place` itself alone: `stroke_local` does so.
    "start": "matcher::Matcher::start",
    "stroke": "matcher::Matcher::stroke stage::Mark::next",
    "strokes": "matcher::Matcher::stroke",
    "stroke in place": "in_place::stroke_local in_place::stroke",
    "stroke shared": "matcher::Matcher::stroke_shared",
    "watch fits": "matcher::Matcher::fits",
    "moved": "matcher::Matcher::moved",
    "climb": "walk::climb",
    "silent": "walk::Answer::is_silent",
    "put answer": "notes::put_answer walk::Answer::set_asides",
    "scan": "scanner::scan",
    "park": "checkpoint_save::save",
    "park behind": "checkpoint_save::save_behind",
    "park narrow": "checkpoint_save::save",
    "park narrow behind": "checkpoint_save::save_behind",
    "resume": "checkpoint_restore::restore",
    # Racks.
    "begin rack": "rack::Rack::begin",
    "put in": "rack::Rack::put_in",
    "take out": "rack::Rack::take_out",
    "stroke rack": "rack::Rack::stroke",
    "rack fits": "rack::Rack::fits",
    "place with": "rack_place::Place::with",
    "place tests": "rack_place::Place::is_free rack_place::Place::has_name rack_place::Place::label "
                   "rack_place::Place::is_clear rack_place::Place::free_fits fingerprint::Key::is_none "
                   "fingerprint::Fingerprint::is_empty",
    "places": "rack_place::place_of rack_place::free_place",
    "begun fits": "rack_place::begun_fits",
    "card fits key": "rack_place::card_fits",
    "labels apart": "rack_names::seen_apart",
    "lowest label": "rack_names::lowest",
    "report start": "rack_report::Report::start",
    # MIDI files, and the printing program's own steps and lines. Every verdict that comes back is told by its number.
    "midi": "midi_file::read",
    "report begin": "report_core::begin",
    "report feed": "report_core::feed refusal::number_of refusal::Refusal::number",
    "report fits": "report_core::Progress::fits",
    "report finish": "report_core::finish",
    "lines of notes": "report_lines::put_notes",
    "line of refusal": "report_lines::put_refusal",
    "line of end": "report_lines::put_end",
    "decimal read": "decimal::parse",
    "decimal put": "decimal::put",
    # Fingerprints and powers. Every key and print is made of its number, and told by it.
    "print push": "fingerprint::Fingerprint::push fingerprint::Fingerprint::of_number fingerprint::Fingerprint::number",
    "print join": "fingerprint::Fingerprint::join",
    "print cut": "fingerprint::Fingerprint::cut",
    "print tests": "fingerprint::Fingerprint::fits fingerprint::Fingerprint::is_of_byte",
    "print of byte": "fingerprint::Fingerprint::of_byte",
    "print join by": "fingerprint::Fingerprint::join_by",
    "print join times": "fingerprint::Fingerprint::join_times",
    "print cut by": "fingerprint::Fingerprint::cut_by",
    "key power": "fingerprint::Key::power fingerprint::Fingerprint::empty",
    "key tests": "fingerprint::Key::fits",
    "power times": "fingerprint::Power::times",
    "power squared": "fingerprint::Power::squared",
    "powers raise": "powers::Powers::of powers::Powers::raise",
    "powers shifts": "powers::Powers::shifts",
    "powers key": "powers::Powers::key fingerprint::Key::new fingerprint::Key::number",
    # Stages.
    "take off": "stage::Stage::take_off",
    "enter": "stage::Stage::enter",
    "stage tests": "stage::Stage::shape_fits stage::Stage::is_ripe stage::Stage::none_fits",
    "last fits": "stage::Stage::last_fits",
    "listed from": "stage::Stage::listed_from",
    "quiet until": "stage::Stage::quiet_until",
    "distance": "",   # a number that is taken off another one, down to 0: the language's own
    "mark fits": "stage::Mark::fits",
    # The parts of records.
    "field at": "fields::field_at",
    "number at": "fields::number_at",
    "put field": "fields::put",
    "word at": "record::word_at",
    "put word": "record::put_word",
    "key at": "record::key_at",
    "put key": "record::put_key",
    "print at": "record::print_at",
    "put print": "record::put_print",
    "put head": "record::put_head",
    "check head": "record::check_head",
    "format": "checkpoint_format::Format::width checkpoint_format::Format::kind checkpoint_format::Format::least "
              "checkpoint_format::Format::can_say checkpoint_format::Format::mark_size "
              "checkpoint_format::Format::stage_size checkpoint_format::Format::stages_at "
              "checkpoint_format::checkpoint_size fields::Width::bytes",
    # The plain search.
    "occurs": "naive_search::occurs",
    "more": "naive_search::more",
    "print of": "naive_search::print_of",
    "collides": "naive_search::collides",
    "search stages": "naive_search::stages",
    # Values that hold nothing.
    "nothing": "signature::Signature::none matcher::Matcher::none stage::Stage::none rack_place::Place::none "
               "walk::Answer::none rack_report::Reports::none rack_names::no_labels fingerprint::Key::none "
               "stage::Mark::origin",
}

# Functions that take and hand back no values of documents 01 and 02 but what a descriptor or a program's arguments have, and
# the driver's own.
BY_PROGRAMS = {"argument", "descriptor", "refusal_line", "report_loop"}
# Parts of values that "nothing" tells whole: a report of no name stands in `Reports::none`, and no power can be told; and the
# reports that count, over which `example` and `rack_speed` go.
WITHIN = {"rack_report::Report::none", "fingerprint::Power::none", "rack_report::Reports::all"}


def public_functions():
    """Every public function of the library's crates."""
    for crate in sorted(os.listdir(os.path.join(programs.ROOT, "crates"))):
        folder = os.path.join(programs.ROOT, "crates", crate, "src")
        if crate in BY_PROGRAMS or crate.startswith("driver") or not os.path.exists(os.path.join(folder, "lib.rt")):
            continue
        for name in sorted(os.listdir(folder)):
            owner = ""
            with open(os.path.join(folder, name), encoding="utf-8") as file:
                for line in file:
                    if line.startswith(("impl ", "}")):
                        owner = line.split()[1] + "::" if line.startswith("impl ") else ""
                    public = re.match(r" *pub fn (\w+)", line)
                    if public:
                        yield "%s::%s%s" % (crate, owner, public.group(1))


def unreached():
    """What the table leaves out, in words."""
    there, made = set(public_functions()), {one for functions in MADE.values() for one in functions.split()}
    for name in sorted(there - made - WITHIN):
        yield "no call makes %s" % name
    for name in sorted((made | WITHIN) - there):
        yield "there is no public function %s" % name
    for name in sorted(set(calls.CALLS) ^ set(MADE)):
        yield "the call %r is in one of the two tables alone" % name


if __name__ == "__main__":
    left = list(unreached())
    print("\n".join(left), end="\n" if left else "")
    sys.exit(1 if left else 0)
