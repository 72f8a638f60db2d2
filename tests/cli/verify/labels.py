#!/usr/bin/env python3
"""'dabplan verify': labels, loops and counters. The last line is 'N passed, M failed'."""
import rows
from codes import AT_64, PROGRAMME
from verdicts import judged


def a_round_of_two_swaps(rows):
    """A loop returns to its label in the same state."""
    judged(rows, [PROGRAMME], (
        ("0 cost 1",
         "wait contact 3 closed, rate sub 1 96, commit in 24, join, wait contact 3 open, rate sub 1 128, "
         "commit in 24, join, jump 0", None),
        ("0 cost 1",
         "wait contact 3 closed, rate sub 1 96, commit in 24, join, wait contact 3 open, jump 0", "5 Mismatch"),
    ))


def what_fits_a_label(rows):
    """Configurations are compared by content; bounds may be wider, and the cost at most what is left."""
    judged(rows, [PROGRAMME, PROGRAMME, AT_64, AT_64], (
        ("0 cost 5, 3 of 0 2 within 24 27 cost 2", "rate sub 1 64, commit in 24, test 1 3, settle, end", None),
        ("0 cost 5, 3 of 1 3 within 24 27 cost 2", "rate sub 1 64, commit in 24, test 1 3, settle, end", None),
        ("0 cost 5, 3 of 0 2 within 1 27 cost 2", "rate sub 1 64, commit in 24, test 1 3, settle, end", None),
        ("0 cost 5, 3 of 0 2 within 24 65535 cost 2", "rate sub 1 64, commit in 24, test 1 3, settle, end", None),
        ("0 cost 5, 3 of 0 2 perhaps 27 cost 2", "rate sub 1 64, commit in 24, test 1 3, settle, end", None),
        ("0 cost 5, 3 of 0 2 within 24 27 cost 3", "rate sub 1 64, commit in 24, test 1 3, settle, end", "2 Cost"),
    ))


def what_does_not_fit_a_label(rows):
    """Narrower bounds, no swap, another configuration, a counter that is not set."""
    judged(rows, [PROGRAMME, PROGRAMME, AT_64, AT_64], (
        ("0 cost 5, 3 of 0 2 within 25 27 cost 2", "rate sub 1 64, commit in 24, test 1 3, settle, end", "2 Mismatch"),
        ("0 cost 5, 3 of 0 2 within 24 26 cost 2", "rate sub 1 64, commit in 24, test 1 3, settle, end", "2 Mismatch"),
        ("0 cost 5, 3 of 0 2 perhaps 26 cost 2", "rate sub 1 64, commit in 24, test 1 3, settle, end", "2 Mismatch"),
        ("0 cost 5, 3 of 0 2 cost 2", "rate sub 1 64, commit in 24, test 1 3, settle, end", "2 Mismatch"),
        ("0 cost 5, 3 of 2 2 within 24 27 cost 2", "rate sub 1 64, commit in 24, test 1 3, settle, end", "2 Mismatch"),
        ("0 cost 5, 3 of 0 1 within 24 27 cost 2", "rate sub 1 64, commit in 24, test 1 3, settle, end", "2 Mismatch"),
        ("0 cost 5, 3 of 0 2 within 24 27 counters 04 cost 2",
         "rate sub 1 64, commit in 24, test 1 3, settle, end", "2 Mismatch"),
        ("0 cost 5, 3 of 0 2 within 24 27 cost 3", "rate sub 1 64, commit in 24, test 1 3, settle, end", "2 Cost"),
    ))


def what_comes_from_the_instruction_before(rows):
    """A label is also entered from the instruction before it."""
    judged(rows, [PROGRAMME, AT_64], (
        ("0 cost 2, 1 of 0 1 cost 1", "rate sub 1 64, wait 1, end", None),
        ("0 cost 2, 1 cost 1", "rate sub 1 64, wait 1, end", "1 Mismatch"),
        ("0 cost 2, 1 of 1 1 cost 1", "rate sub 1 64, wait 1, end", "1 Mismatch"),
        ("0 cost 2, 1 of 0 1 cost 2", "rate sub 1 64, wait 1, end", "1 Cost"),
        ("0 cost 2, 2 of 0 1 cost 20", "rate sub 1 64, wait 1, end", None),
        ("0 cost 2, 2 of 0 1 cost 21", "rate sub 1 64, wait 1, end", "2 Cost"),
    ))


def labels_that_nothing_comes_to(rows):
    """Parts of a code that only their own label reaches are checked like others."""
    judged(rows, [PROGRAMME, AT_64], (
        ("0 cost 1, 1 of 1 1 cost 2", "end, rate sub 1 96, end", None),
        ("0 cost 1, 1 of 1 1 cost 2", "end, rate sub 2 96, end", "1 Edit IdAbsent"),
        ("0 cost 1, 1 of 1 1 cost 21", "end, rate sub 2 96, end", "1 Cost"),
    ))


def what_the_first_label_declares(rows):
    """At the start nothing is pending, no counter is set, and current and next are the same."""
    judged(rows, ["", "", "service C221"], (
        ("0 cost 1", "end", None),
        ("0 of 0 1 cost 1", "end", None),
        ("0 of 0 2 cost 1", "end", "0 Mismatch"),
        ("0 of 2 0 cost 1", "end", "0 Mismatch"),
        ("0 of 0 0 within 24 27 cost 1", "end", "0 Mismatch"),
        ("0 of 0 0 perhaps 1 cost 1", "end", "0 Mismatch"),
        ("0 counters 80 cost 1", "end", "0 Mismatch"),
        ("0 cost 20", "end", None),
        ("0 cost 21", "end", "0 Cost"),
    ))
    judged(rows, ["", "", "service C221"], (
        ("0 cost 255", "end", None),
    ), budget=255)


def no_label_where_one_is_needed(rows):
    """At 0, and after an instruction that never continues."""
    judged(rows, [""], (
        ("1 cost 1", "end", "0 Table"),
        ("0 cost 1", "end, end", "1 Table"),
        ("0 cost 1", "wait 1, jump 0, wait 1, jump 0", "2 Table"),
        ("0 cost 1, 2 cost 1", "wait 1, jump 0, wait 1, jump 0", None),
    ))


def labels_past_the_last_instruction(rows):
    """They are refused at their pc, which has no line."""
    judged(rows, [""], (
        ("0 cost 1, 1 cost 1, 7 cost 1", "end", "1 Table"),
        ("0 cost 1, 1 cost 1, 65535 cost 1", "wait 1, end", "65535 Table"),
    ))


def a_round_without_a_suspension(rows):
    """It is refused with any cost."""
    judged(rows, [""], (
        ("0 cost 4, 1 counters 01 cost 3, 3 counters 01 cost 1", "set 0 5, test 1 3, jump 3, loop 0 1, end", "3 Cost"),
    ))
    judged(rows, [""], (
        ("0 cost 255, 1 counters 01 cost 254, 3 counters 01 cost 2",
         "set 0 5, test 1 3, jump 3, loop 0 1, end", "3 Cost"),
        ("0 cost 255, 1 counters 01 cost 254, 3 counters 01 cost 16",
         "set 0 5, test 1 3, jump 3, loop 0 1, end", "3 Cost"),
        ("0 cost 255, 1 counters 01 cost 254, 3 counters 01 cost 254",
         "set 0 5, test 1 3, jump 3, loop 0 1, end", "1 Cost"),
    ), budget=255)


def a_round_with_a_wait(rows):
    """It is accepted with the budget that it needs, and refused with one less."""
    judged(rows, [""], (
        ("0 cost 4, 1 counters 01 cost 3, 3 counters 01 cost 1",
         "set 0 5, test 1 3, jump 3, wait 1, loop 0 1, end", None),
    ), budget=4)
    judged(rows, [""], (
        ("0 cost 4, 1 counters 01 cost 3, 3 counters 01 cost 1",
         "set 0 5, test 1 3, jump 3, wait 1, loop 0 1, end", "0 Cost"),
    ), budget=3)


def counters(rows):
    """A counter is set when its loop is reached, on each path, and unset after it."""
    judged(rows, [""], (
        ("0 cost 2, 1 counters 01 cost 1", "set 0 3, wait 1, loop 0 1, end", None),
        ("0 cost 2, 1 cost 1", "set 0 3, wait 1, loop 0 1, end", "2 CounterUnset"),
        ("0 cost 2, 1 counters 02 cost 1", "set 0 3, wait 1, loop 0 1, end", "1 Mismatch"),
        ("0 cost 2, 1 counters 01 cost 1", "set 0 3, wait 1, loop 0 1, loop 0 1, end", "3 CounterUnset"),
        ("0 cost 2, 1 counters 01 cost 1", "jump 1, wait 1, loop 0 1, end", "0 Mismatch"),
    ))


def one_loop_in_another(rows):
    """The cost of the outer loop covers the path to the wait: two loops, and then the inner counter and the wait."""
    judged(rows, [""], (
        ("0 cost 3, 1 counters 01 cost 2, 2 counters 81 cost 1",
         "set 0 3, set 7 2, wait 1, loop 7 2, loop 0 1, end", None),
    ))
    judged(rows, [""], (
        ("0 cost 3, 1 counters 01 cost 2, 2 counters 81 cost 1",
         "set 0 3, set 7 2, wait 1, loop 7 2, loop 0 1, end", None),
    ), budget=4)
    judged(rows, [""], (
        ("0 cost 3, 1 counters 01 cost 2, 2 counters 81 cost 1",
         "set 0 3, set 7 2, wait 1, loop 7 2, loop 0 1, end", "4 Cost"),
    ), budget=3)


def frames_of_the_day(rows):
    """Waiting for one is a suspension."""
    judged(rows, [""], (
        ("0 cost 1", "until 0, end", None),
        ("0 cost 1", "until 3599999, end", None),
        ("0 cost 1", "until 0, jump 0", None),
        ("0 cost 1", "until 0, join", "1 JoinIdle"),
    ))


if __name__ == "__main__":
    rows.main([a_round_of_two_swaps, what_fits_a_label, what_does_not_fit_a_label, what_comes_from_the_instruction_before,
               labels_that_nothing_comes_to, what_the_first_label_declares, no_label_where_one_is_needed,
               labels_past_the_last_instruction, a_round_without_a_suspension, a_round_with_a_wait, counters,
               one_loop_in_another, frames_of_the_day])
