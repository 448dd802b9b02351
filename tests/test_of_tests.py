"""Tests of the tests: the model broken on purpose, one small function at a time, must be noticed.

A fault is noticed by the random runs of demand 3, or by the named tests. The first four are document
01's "Faults to shut out"; others are versions that its section "What the contracts carry" shuts out.
"""

import contextlib
import difflib
import io
import re
import sys
import unittest
from unittest import mock

import test_delivery
import test_demand3
import test_frames
import test_group
import test_hearing
import test_listing
import test_marked_examples
import test_replies
import test_station
import test_turns
from model import bodies, delivery, hearing, lines, listing, records, replies, station, turns
from model.bodies import DROP, EMPTY, INSERT, NEUTRAL, SHIFT, Body
from model.frames import read_frame
from model.group import heard_stations
from model.lines import PostLine, RoundLine
from model.queues import contents, lane_of, replaced


EDIT = Body(DROP, 5, 0)


@contextlib.contextmanager
def broken(name, copy):
    """The model with a broken copy of one function, in every module that uses it."""
    users = [module for key, module in sys.modules.items()
             if key.startswith("model.") and hasattr(module, name)]
    assert users, name
    with contextlib.ExitStack() as stack:
        for module in users:
            stack.enter_context(mock.patch.object(module, name, copy))
        yield


def first_noticed_run(runs=test_demand3, most=test_demand3.RUNS):
    """What the first random run that notices something prints, or None."""
    for seed in range(min(most, runs.RUNS)):
        fault = runs.check_seed(seed)
        if fault is not None:
            return fault
    return None


def passes(test_class, name):
    """Whether one test, run here and now, passes. Nobody reads in which lines two states differ, and unittest would work
    for minutes to tell it."""
    with mock.patch.object(difflib, "ndiff", return_value=()):
        return unittest.TextTestRunner(stream=io.StringIO()).run(test_class(name)).wasSuccessful()


class Broken(unittest.TestCase):
    def assert_runs_notice(self, words, runs=test_demand3):
        """Some run breaks a sentence with these words, and prints its seed and script."""
        fault = first_noticed_run(runs)
        self.assertIsNotNone(fault)
        self.assertRegex(fault, rf"^seed \d+, .*{words}")
        self.assertRegex(fault, re.compile(r"^N +\d+$", re.MULTILINE))
        self.assertRegex(fault, re.compile(r"^R[ \d]+$", re.MULTILINE))

    def assert_test_fails(self, test_class, *names):
        for name in names:
            self.assertFalse(passes(test_class, name), name)


class NotBroken(Broken):
    def test_a_right_copy_passes(self):
        """What is noticed below comes from the fault and not from the copying."""
        with broken("may_start", lambda one: one.lanes[one.own].length == 0):
            self.assertTrue(passes(test_marked_examples.OneStation, "test_m12"))
            self.assertIsNone(test_demand3.check_seed(5))


class FaultsToShutOut(Broken):
    def test_larger_label_is_newer(self):
        def newer(seen, held):
            return held is None or ((records.own_label(seen), seen.count)
                                    > (records.own_label(held), held.count))
        with broken("newer", newer):
            self.assert_test_fails(test_marked_examples.Newer, "test_m3", "test_m4")
            self.assert_runs_notice("end in rounds")

    def test_frames_written_after_some_have_heard(self):
        def hear_all(stations, masks):
            stations, takings = list(stations), []
            for place in range(len(stations)):
                taken = []
                for sender in heard_stations(masks[place], place, len(stations)):
                    frame = read_frame(station.written_frame(stations[sender]))
                    stations[place], more = hearing.hear_records(stations[place], frame)
                    taken += more
                takings.append(taken)
            return stations, takings
        with broken("hear_all", hear_all):
            self.assert_runs_notice("end in rounds")
            self.assert_test_fails(test_group.Round, "test_news_crosses_one_link")

    def test_acknowledgement_of_a_record_that_is_not_newer(self):
        right = hearing.hear_record
        with broken("hear_record", lambda hearer, record: right(
                hearing.acknowledge(hearer, record), record)):
            self.assert_test_fails(test_hearing.Hear, "test_not_newer_acknowledges_nothing")

    def test_start_while_the_own_lane_is_full(self):
        with broken("may_start", lambda one: True):
            self.assert_runs_notice("is refused with 2")
            self.assert_test_fails(test_turns.Turn, "test_starts_empty_while_the_own_lane_is_full")


class IdleRelays(Broken):
    def test_never_airs(self):
        with broken("row_ready", lambda one: False):
            self.assert_test_fails(test_marked_examples.OneStation, "test_m12")
            self.assert_test_fails(test_listing.DocumentListing, "test_to_the_byte")

    def test_never_ends(self):
        with broken("all_acknowledged", lambda one: False):
            self.assert_runs_notice("end in rounds")

    def test_hears_nothing(self):
        with broken("heard_stations", lambda mask, place, n: []):
            self.assert_runs_notice("end in rounds")

    def test_starts_only_empty(self):
        with broken("choose_body", lambda one: (one, EMPTY)):
            self.assert_test_fails(test_marked_examples.OneStation, "test_m12")
            self.assert_test_fails(test_listing.DocumentListing, "test_to_the_byte")

    def test_turns_every_frame_down(self):
        with broken("frame_refusal", lambda data, n, own: 7):
            self.assert_test_fails(test_frames.RoundTrips, "test_written_then_read")


class WrongLimits(Broken):
    def with_row(self, kind, **limits):
        return mock.patch.dict(bodies.KINDS, {kind: bodies.KINDS[kind]._replace(**limits)})

    def test_shift_off_by_one(self):
        for least in (-90_001, -89_999):
            with self.with_row(SHIFT, argument_least=least):
                self.assert_test_fails(test_marked_examples.Posts, "test_m9")

    def test_start_off_by_one(self):
        for most in (2_700_000, 2_699_998, 2_159_999):
            with self.with_row(INSERT, argument_most=most):
                for test in ("test_m10", "test_m10_in_a_frame", "test_m10_in_a_state"):
                    self.assert_test_fails(test_marked_examples.Posts, test)

    def test_queue_off_by_one(self):
        for change in (-1, 1):
            with broken("queue_full", lambda one, desk: station.queue_of(one, desk).length >= one.limit + change):
                self.assert_test_fails(test_marked_examples.Posts, "test_m11")
                self.assert_test_fails(test_station.Post, "test_every_limit")

    def test_lane_off_by_one(self):
        """A lane said to be full while it has a place."""
        with mock.patch.object(hearing, "LANE_LIMIT", 1):
            self.assert_test_fails(test_group.Round, "test_two_takings_of_one_source")

    def test_count_off_by_one(self):
        for change in (-1, 1):
            with broken("count_limit", lambda n: 2 * (n - 1) + change):
                self.assert_test_fails(test_frames.EveryByte, "test_every_byte")


class WrongStates(Broken):
    def test_every_record_acknowledges(self):
        with broken("acknowledge", lambda one, record: one._replace(
                acked=hearing.replaced(one.acked, record.station, True))):
            self.assert_runs_notice("end in rounds")

    def test_count_does_not_rise(self):
        right = hearing.advance
        with broken("advance", lambda one, k: right(one, k)._replace(count=one.count)):
            self.assert_runs_notice("is refused with 14")

    def test_count_rises_twice(self):
        right = hearing.advance
        with broken("advance", lambda one, k: right(right(one, k), k)._replace(
                labels=right(one, k).labels)):
            self.assert_runs_notice("count")

    def test_one_body_for_all(self):
        right = hearing.take
        with broken("take", lambda one, k, body: right(one, k, NEUTRAL)):
            self.assert_runs_notice("neither is a beginning")

    def test_own_record_not_rewritten(self):
        with broken("rewrite_own_record", lambda one: one):
            self.assert_runs_notice("end in rounds")

    def test_newest_waiting_edit_first(self):
        right = turns.choose_body

        def choose_body(one):
            count = one.waiting.length
            slots = one.waiting.slots[:count][::-1] + one.waiting.slots[count:]
            return right(one._replace(waiting=one.waiting._replace(slots=slots)))
        with broken("choose_body", choose_body):
            self.assert_runs_notice("accepted posts")


class WrongAges(Broken):
    """Faults in what document 02, A4 adds."""

    def test_conflicts_passed_over(self):
        with broken("conflicts", lambda one, record: False):
            self.assert_test_fails(test_hearing.Conflict, "test_each_other_field")

    def test_labels_from_n_up_compared(self):
        right = records.age
        with broken("age", lambda seen, held, n: right(seen, held, records.PLACES)):
            self.assert_test_fails(test_hearing.Conflict, "test_labels_from_n_up_are_no_part")

    def test_same_taken_for_conflicting(self):
        with broken("age", lambda seen, held, n: records.NEWER if records.newer(seen, held) else records.CONFLICTING):
            self.assert_test_fails(test_hearing.Conflict, "test_same")
            self.assert_runs_notice("is refused with 14")


class WrongDesks(Broken):
    """Faults in what document 02, A7 adds."""

    def test_one_limit_over_both(self):
        with broken("queue_full", lambda one, desk: one.waiting.length + one.waiting_1.length >= one.limit):
            self.assert_test_fails(test_station.Post, "test_desks_apart")

    def test_other_desk_full(self):
        right = station.queue_full
        with broken("queue_full", lambda one, desk: right(one, desk) or right(one, 1 - desk)):
            self.assert_test_fails(test_station.Post, "test_desks_apart")

    def test_desk_2(self):
        with broken("desk_valid", lambda desk: desk <= 2):
            self.assert_test_fails(test_station.Post, "test_no_such_desk")

    def test_flag_moved_by_neutral(self):
        right = turns.choose_body

        def choose_body(one):
            after, body = right(one)
            return (after._replace(first=1 - one.first) if body == NEUTRAL else after), body
        with broken("choose_body", choose_body):
            self.assert_test_fails(test_turns.Turn, "test_desks")
            self.assert_runs_notice("out of its turn")

    def test_desk_1_first_on_a_fresh_station(self):
        right = station.fresh_state
        with broken("fresh_state", lambda n, own, limit, edition=0: right(n, own, limit, edition)._replace(first=1)):
            self.assert_test_fails(test_turns.Turn, "test_desks_in_turn")
            self.assert_runs_notice("out of its turn")

    def test_same_desk_twice(self):
        with broken("other_desk", lambda desk: desk):
            self.assert_test_fails(test_turns.Turn, "test_desks")
            self.assert_runs_notice("out of its turn")

    def test_flag_stays_where_a_desk_waits_alone(self):
        """Fairness still holds: only the turns notice."""
        right = turns.choose_body

        def choose_body(one):
            after, body = right(one)
            both = one.waiting.length > 0 and one.waiting_1.length > 0
            return (after if both else after._replace(first=one.first)), body
        with broken("choose_body", choose_body):
            self.assert_runs_notice("out of its turn")


class WrongReplies(Broken):
    """Faults that document 02, A14 is about, or that it cannot see."""

    def test_turn_that_starts_before_it_airs(self):
        """Neither A14 nor demand 3 is broken by it: M12 is."""
        def close_round(one):
            one, ended, ended_body, started_body = turns.end(one)
            one, aired, row = turns.air(one)
            return turns.Turned(0, turns.rewrite_own_record(one), aired, row, ended, ended_body, started_body)
        with broken("close_round", close_round):
            self.assert_test_fails(test_marked_examples.OneStation, "test_m12")
            self.assertIsNone(first_noticed_run(test_replies, 80))
            self.assertIsNone(first_noticed_run(test_demand3, 80))

    def test_airs_out_of_row_order(self):
        def air(one):
            if not turns.row_ready(one):
                return one, False, turns.NO_ROW
            lanes = [contents(lane) for lane in one.lanes[:one.n]]
            row = tuple(lane[-1] for lane in lanes) + turns.NO_ROW[one.n:]
            left = tuple(lane_of(lane[:-1]) for lane in lanes) + one.lanes[one.n:]
            return one._replace(lanes=left), True, row
        with broken("air", air):
            self.assert_runs_notice("is truly", test_replies)
            self.assert_runs_notice("neither is a beginning")

    def test_newest_waiting_edit_first(self):
        right = turns.choose_body

        def turned(queue):
            return queue._replace(slots=contents(queue)[::-1] + queue.slots[queue.length:])

        def choose_body(one):
            after, body = right(one._replace(waiting=turned(one.waiting), waiting_1=turned(one.waiting_1)))
            return after._replace(waiting=turned(after.waiting), waiting_1=turned(after.waiting_1)), body
        with broken("choose_body", choose_body):
            self.assert_runs_notice("is truly", test_replies)
            self.assert_runs_notice("accepted posts")

    def test_post_in_the_place_of_a_neutral(self):
        """A post that takes the place of a Neutral which its station has started."""
        right = station.append_edit

        def append_edit(one, body, desk):
            if right(one, body, desk).refusal == 0 and contents(one.lanes[one.own]) == (NEUTRAL,):
                lanes = replaced(one.lanes, one.own, lane_of((body,)))
                return station.PostedStation(0, one._replace(lanes=lanes))
            return right(one, body, desk)
        with broken("append_edit", append_edit):
            self.assert_runs_notice("is truly", test_replies)

    def test_a_list_without_an_entry_or_in_another_order(self):
        both = [RoundLine((2, 1))] * 4
        run = replies.run_of(2, [PostLine(0, EDIT), *both, PostLine(1, EDIT), *both], 8)
        edits = replies.by_place(run)
        self.assertEqual(list(replies.replies_stay_behind(run, edits)), [])
        for wrong, word in ((edits[0][1:], "without"), (edits[0][::-1], "before")):
            fault = next(replies.replies_stay_behind(run, [wrong, edits[1]]))
            self.assertIn(f"0 has aired edit 0 of desk 0 at 1 {word} edit 0 of desk 0 at 0", fault)


class WrongBounds(Broken):
    """Bounds that look better than the proved ones, each broken by the run of a seed; and relays that meet demand 3 and air too
    little."""

    def assert_seed_notices(self, seed, words):
        self.assertRegex(test_delivery.check_seed(seed) or "", rf"^seed \d+, .*{words}")

    def test_sooner(self):
        with mock.patch.object(delivery, "factors", lambda run, post: [6 * post.behind + 5]):
            self.assert_seed_notices(1319, "is aired everywhere in round 17, after 16")

    def test_as_if_the_desk_were_alone(self):
        with mock.patch.object(delivery, "factors", lambda run, post: [3 * post.behind + 7]):
            self.assert_seed_notices(101, "is aired everywhere in round 31, after 30")

    def test_sooner_alone(self):
        right = delivery.factors
        with mock.patch.object(delivery, "factors", lambda run, post: [f - 3 for f in list(right(run, post))[1:]]):
            self.assert_seed_notices(604, "is aired everywhere in round 63, after 62")

    def test_rows(self):
        with mock.patch.object(delivery, "ROW", 2):
            self.assert_seed_notices(1, "not all have aired a row more")
        with mock.patch.object(delivery, "APART", 0):
            self.assert_seed_notices(1, "the rows aired are")

    def test_never_airs(self):
        with broken("row_ready", lambda one: False):
            self.assert_runs_notice("is aired everywhere", test_delivery)

    def test_starts_only_empty(self):
        with broken("choose_body", lambda one: (one, EMPTY)):
            self.assert_runs_notice("is aired everywhere", test_delivery)

    def test_neutral_first(self):
        """Of three bodies that start two are Neutral, whatever waits."""
        right = turns.choose_body
        with broken("choose_body", lambda one: (one, NEUTRAL) if turns.may_start(one) and one.labels[one.own] != 1 else right(one)):
            self.assert_runs_notice("is aired everywhere", test_delivery)


class WrongQueueLimits(Broken):
    """Faults in what document 02, A2 adds."""

    def test_limit_ignored_at_post(self):
        for most in (8, 32):
            with broken("queue_full", lambda one, desk: station.queue_of(one, desk).length >= most):
                self.assert_test_fails(test_station.Post, "test_every_limit")
                self.assert_test_fails(test_group.Post, "test_stations_may_differ")

    def test_limit_of_33(self):
        with broken("limit_valid", lambda limit: 1 <= limit <= 33):
            self.assert_test_fails(test_station.Fresh, "test_refused")
            self.assert_test_fails(test_group.Fresh, "test_refused")
            self.assert_test_fails(test_station.Limits, "test_outside_every_call_gives_2")

    def test_limit_of_0(self):
        with broken("limit_valid", lambda limit: limit <= 32):
            self.assert_test_fails(test_station.Fresh, "test_refused")
            self.assert_test_fails(test_station.Limits, "test_outside_every_call_gives_2")

    def test_8_where_the_listing_names_32(self):
        with mock.patch.object(listing, "LIMIT", 8):
            self.assert_test_fails(test_listing.Posts, "test_full_queue")

    def test_32_where_no_limit_is_named(self):
        """The limit of a refused call's answer and of the places from N up too."""
        with broken("lone_state", lambda: station.fresh_state(1, 0, 32)):
            self.assert_test_fails(test_station.Fresh, "test_refused")
            self.assert_test_fails(test_group.Fresh, "test_fresh", "test_every_limit", "test_refused")

    def test_named_limit_from_n_up(self):
        def fresh_group_state(n, limit, edition=0):
            stations = tuple(station.fresh_state(n, own, limit, edition) for own in range(n))
            return stations + (station.fresh_state(1, 0, limit),) * (16 - n)
        with broken("fresh_group_state", fresh_group_state):
            self.assert_test_fails(test_group.Fresh, "test_every_limit")


class WrongLines(Broken):
    def test_leading_zeros(self):
        with mock.patch.object(lines, "FIELD_FORM", re.compile(rb" *-?[0-9]+")):
            self.assert_test_fails(test_listing.Malformed, "test_every_form")

    def test_last_line_without_its_line_end(self):
        with broken("split_lines", lambda script: script.rstrip(b"\n").split(b"\n")):
            self.assert_test_fails(test_listing.Malformed, "test_last_line_cut_anywhere")


if __name__ == "__main__":
    unittest.main()
