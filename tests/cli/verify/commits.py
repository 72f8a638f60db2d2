#!/usr/bin/env python3
"""'dabplan verify': commits, waits during a notice, and settling. The last line is 'N passed, M failed'."""
import rows
from codes import AT_64, PROGRAMME, SMALL_SUBS
from verdicts import judged, verdict


def delays_and_counts(rows):
    """A swap has its notice before it, and is at a count at which FIG 0/0 is sent."""
    judged(rows, [""], (
        ("0 cost 5", "sub 1 at 0 eep 3-A 128, service C221, audio 63 sub 1 in C221, commit in 24, join, end", None),
        ("0 cost 5", "sub 1 at 0 eep 3-A 128, service C221, audio 63 sub 1 in C221, commit in 60000, join, end", None),
        ("0 cost 5",
         "sub 1 at 0 eep 3-A 128, service C221, audio 63 sub 1 in C221, commit in 23, join, end", "3 Notice"),
        ("0 cost 5", "sub 1 at 0 eep 3-A 128, service C221, audio 63 sub 1 in C221, commit at 1000, join, end", None),
        ("0 cost 5", "sub 1 at 0 eep 3-A 128, service C221, audio 63 sub 1 in C221, commit at 0, join, end", None),
        ("0 cost 5", "sub 1 at 0 eep 3-A 128, service C221, audio 63 sub 1 in C221, commit at 4996, join, end", None),
        ("0 cost 5",
         "sub 1 at 0 eep 3-A 128, service C221, audio 63 sub 1 in C221, commit at 1002, join, end", "3 Count"),
        ("0 cost 5",
         "sub 1 at 0 eep 3-A 128, service C221, audio 63 sub 1 in C221, commit at 5000, join, end", "3 Count"),
    ))


def a_longer_notice(rows):
    """The least delay of a commit is the notice."""
    judged(rows, [PROGRAMME], (
        ("0 cost 3", "rate sub 1 64, commit in 248, end", None),
        ("0 cost 3", "rate sub 1 64, commit in 247, end", "1 Notice"),
    ), notice=248)


def a_label_pays_for_its_frame(rows):
    """The cost of a label covers the longest path from it to a suspension, and is at most the budget."""
    judged(rows, [""], (
        ("0 cost 20", "sub 1 at 0 eep 3-A 128, service C221, audio 63 sub 1 in C221, commit in 24, join, end", None),
        ("0 cost 4", "sub 1 at 0 eep 3-A 128, service C221, audio 63 sub 1 in C221, commit in 24, join, end", "4 Cost"),
        ("0 cost 1", "sub 1 at 0 eep 3-A 128, service C221, audio 63 sub 1 in C221, commit in 24, join, end", "1 Cost"),
        ("0 cost 21",
         "sub 1 at 0 eep 3-A 128, service C221, audio 63 sub 1 in C221, commit in 24, join, end", "0 Cost"),
    ))


def a_commit_changes_something(rows):
    """Nothing was edited, or the edits cancel out, or the committed configuration is current."""
    judged(rows, [""], (
        ("0 cost 2", "commit in 24, join, end", "0 NoChange"),
    ))
    judged(rows, [PROGRAMME], (
        ("0 cost 2", "commit in 24, join, end", "0 NoChange"),
        ("0 cost 4", "rate sub 1 64, rate sub 1 128, commit in 24, end", "2 NoChange"),
        ("0 cost 3", "rate sub 1 64, commit in 24, wait 27, commit in 24, end", "3 NoChange"),
    ))


def bounds_after_a_delay(rows):
    """A wait that ends certainly before the swap, certainly after it, or neither: after a commit in 24 frames."""
    judged(rows, [PROGRAMME], (
        ("0 cost 3", "rate sub 1 64, commit in 24, wait 1, rate sub 1 96, end", "3 Pending"),
        ("0 cost 3", "rate sub 1 64, commit in 24, wait 23, rate sub 1 96, end", "3 Pending"),
        ("0 cost 3", "rate sub 1 64, commit in 24, wait 24, rate sub 1 96, end", "2 SwapUncertain"),
        ("0 cost 3", "rate sub 1 64, commit in 24, wait 25, rate sub 1 96, end", "2 SwapUncertain"),
        ("0 cost 3", "rate sub 1 64, commit in 24, wait 26, rate sub 1 96, end", "2 SwapUncertain"),
        ("0 cost 3", "rate sub 1 64, commit in 24, wait 27, rate sub 1 96, end", None),
        ("0 cost 3", "rate sub 1 64, commit in 24, wait 65535, rate sub 1 96, end", None),
    ))


def bounds_before_a_count(rows):
    """The same after a commit at a count: the swap may be a whole cycle of the count away."""
    judged(rows, [PROGRAMME], (
        ("0 cost 3", "rate sub 1 64, commit at 1000, wait 23, rate sub 1 96, end", "3 Pending"),
        ("0 cost 3", "rate sub 1 64, commit at 1000, wait 24, rate sub 1 96, end", "2 SwapUncertain"),
        ("0 cost 3", "rate sub 1 64, commit at 1000, wait 5022, rate sub 1 96, end", "2 SwapUncertain"),
        ("0 cost 3", "rate sub 1 64, commit at 1000, wait 5023, rate sub 1 96, end", None),
    ))


def one_wait_after_another(rows):
    """Waits add up."""
    judged(rows, [PROGRAMME], (
        ("0 cost 3", "rate sub 1 64, commit in 24, wait 23, wait 1, rate sub 1 96, end", "3 SwapUncertain"),
        ("0 cost 3", "rate sub 1 64, commit in 24, wait 23, wait 3, rate sub 1 96, end", "3 SwapUncertain"),
        ("0 cost 3", "rate sub 1 64, commit in 24, wait 23, wait 4, rate sub 1 96, end", None),
    ))


def joins(rows):
    """A join is allowed if a swap is certainly pending, and refused if it was certainly made."""
    judged(rows, [PROGRAMME], (
        ("0 cost 3", "rate sub 1 64, commit in 24, wait 23, join, rate sub 1 96, end", None),
        ("0 cost 3", "rate sub 1 64, commit in 24, wait 27, join, rate sub 1 96, end", "3 JoinIdle"),
    ))


def a_contact_during_a_notice(rows):
    """After a wait for a contact the swap has perhaps been made: until it is settled, or certainly over."""
    judged(rows, [PROGRAMME], (
        ("0 cost 3",
         "rate sub 1 64, commit in 24, wait contact 3 closed, settle, rate sub 1 96, commit in 24, settle, end", None),
        ("0 cost 3",
         "rate sub 1 64, commit in 24, wait contact 3 closed, join, rate sub 1 96, commit in 24, settle, end", "3 JoinIdle"),
        ("0 cost 3",
         "rate sub 1 64, commit in 24, wait contact 3 closed, wait 26, rate sub 1 96, commit in 24, settle, end", None),
        ("0 cost 3",
         "rate sub 1 64, commit in 24, wait contact 3 closed, wait 25, rate sub 1 96, commit in 24, settle, end", "4 Pending"),
        ("0 cost 3",
         "rate sub 1 64, commit in 24, wait contact 3 closed, rate sub 1 96, commit in 24, settle, end",
         "3 Pending"),
    ))


def a_commit_where_a_swap_is_perhaps_pending(rows):
    """It is refused as pending."""
    judged(rows, [PROGRAMME], (
        ("0 cost 3",
         "rate sub 1 64, commit in 24, wait contact 3 closed, commit in 24, rate sub 1 96, commit in 24, settle, end",
         "3 Pending"),
        ("0 cost 3",
         "rate sub 1 64, commit in 24, wait contact 3 closed, commit at 0, rate sub 1 96, commit in 24, settle, end",
         "3 Pending"),
    ))


def settling_alone(rows):
    """If nothing is pending, settling does nothing; it is not a suspension."""
    judged(rows, [""], (
        ("0 cost 2", "settle, end", None),
        ("0 cost 1", "settle, end", "1 Cost"),
        ("0 cost 1", "settle, jump 0", "1 Cost"),
        ("0 cost 2", "settle, jump 0", "1 Cost"),
        ("0 cost 3", "settle, jump 0", "1 Cost"),
        ("0 cost 20", "settle, jump 0", "1 Cost"),
    ))


def the_head_of_a_loop(rows):
    """What is known at a loop: a swap perhaps pending, with bounds that cover each path to it."""
    judged(rows, [PROGRAMME, AT_64], (
        ("0 cost 3, 2 of 0 1 within 24 27 cost 1",
         "rate sub 1 64, commit in 24, wait contact 3 closed, jump 2", "3 Mismatch"),
        ("0 cost 3, 2 of 0 1 within 1 27 cost 1",
         "rate sub 1 64, commit in 24, wait contact 3 closed, jump 2", "3 Mismatch"),
        ("0 cost 3, 2 of 0 1 perhaps 27 cost 1", "rate sub 1 64, commit in 24, wait contact 3 closed, jump 2", None),
        ("0 cost 3, 2 of 0 1 perhaps 26 cost 1",
         "rate sub 1 64, commit in 24, wait contact 3 closed, jump 2", "2 Mismatch"),
    ))


def an_hour_and_a_branch(rows):
    """Where paths merge, the swap is perhaps pending."""
    judged(rows, [PROGRAMME, AT_64], (
        ("0 cost 3, 5 of 0 1 perhaps 26 cost 2",
         "rate sub 1 64, commit in 24, until 3300000, test 1 5, wait 1, settle, end", None),
        ("0 cost 3, 5 of 0 1 perhaps 25 cost 2",
         "rate sub 1 64, commit in 24, until 3300000, test 1 5, wait 1, settle, end", "3 Mismatch"),
        ("0 cost 3, 5 of 0 1 perhaps 26 cost 1",
         "rate sub 1 64, commit in 24, until 3300000, test 1 5, wait 1, settle, end", "6 Cost"),
        ("0 cost 3, 5 of 1 1 cost 2",
         "rate sub 1 64, commit in 24, until 3300000, test 1 5, wait 1, settle, end", "3 Mismatch"),
    ))


def a_swap_that_was_made_on_one_way(rows):
    """On a path with the swap made, the configuration must be the one it made."""
    judged(rows, [PROGRAMME, AT_64], (
        ("0 cost 3, 5 of 0 1 perhaps 26 cost 2",
         "rate sub 1 64, commit in 24, wait contact 3 closed, test 1 5, settle, settle, end", None),
        ("0 cost 3, 6 of 0 1 perhaps 26 cost 2",
         "rate sub 1 64, commit in 24, wait contact 3 closed, test 1 6, settle, rate sub 1 96, settle, end", "6 Mismatch"),
    ))


def in_each_mode(rows, labels, instructions, wanted):
    """A code of one programme has these verdicts in the modes 1 to 4."""
    for mode, each in enumerate(wanted, 1):
        verdict(rows, each, instructions, labels=labels, configs=[PROGRAMME], mode=mode)


def counts_of_swaps(rows):
    """A swap falls on a count of its mode."""
    unfit = "1 Count"
    for count, *wanted in (
        (0, None, None, None, None),
        (1000, None, None, None, None),
        (1001, unfit, None, None, unfit),
        (1002, unfit, None, None, None),
        (4999, unfit, None, None, unfit),
        (5000, unfit, unfit, unfit, unfit),
    ):
        in_each_mode(rows, "0 cost 3", f"rate sub 1 64, commit at {count}, end", wanted)


def waits_in_each_mode(rows):
    """The swap comes after 24 frames at the earliest, and at the latest one step of the mode less one later."""
    unsure = "2 SwapUncertain"
    for frames, *wanted in (
        (23, None, None, None, None),
        (24, unsure, None, None, unsure),
        (25, unsure, None, None, None),
        (26, unsure, None, None, None),
        (27, None, None, None, None),
    ):
        in_each_mode(rows, "0 cost 3", f"rate sub 1 64, commit in 24, wait {frames}, end", wanted)


def one_code_in_each_mode(rows):
    """Verdicts that do not depend on the mode."""
    in_each_mode(rows, "0 cost 3", "rate sub 1 64, commit in 24, join, end", [None] * 4)
    in_each_mode(rows, "0 cost 3", "end", [None] * 4)
    in_each_mode(rows, "0 cost 3", "join", ["0 JoinIdle"] * 4)


def pages_in_time(rows):
    """64 small sub-channels take four pages, and in mode 3 three; in mode 1 they take seven together with 63 of them. The
    empty configuration takes one."""
    for mode, period, wanted in ((1, 3, "0 Round"), (1, 4, None), (3, 2, "0 Round"), (3, 3, None)):
        verdict(rows, wanted, "end", configs=[SMALL_SUBS], mode=mode, period=period)
    for period, notice, wanted in ((7, 21, None), (6, 24, "1 Round"), (7, 20, "1 Round")):
        verdict(rows, wanted, "drop sub 0, commit in 60, end", labels="0 cost 3", configs=[SMALL_SUBS], period=period,
                notice=notice)
    for period, wanted in ((4, None), (3, "64 Round")):
        verdict(rows, wanted, SMALL_SUBS + ", commit in 24, end", labels="0 cost 66", period=period, budget=66)


def a_moved_sub_channel(rows):
    """It may take the units of another one that is dropped before the commit."""
    two = "sub 1 at 0 eep 3-A 128, sub 2 at 96 eep 3-A 64"
    judged(rows, [two], (
        ("0 cost 4", "move sub 2 at 0, drop sub 1, commit in 24, end", None),
        ("0 cost 3", "move sub 2 at 0, commit in 24, end", "1 Config Overlap 1 2"),
    ))


if __name__ == "__main__":
    rows.main([delays_and_counts, a_longer_notice, a_label_pays_for_its_frame, a_commit_changes_something,
               bounds_after_a_delay, bounds_before_a_count, one_wait_after_another, joins, a_contact_during_a_notice,
               a_commit_where_a_swap_is_perhaps_pending, settling_alone, the_head_of_a_loop, an_hour_and_a_branch,
               a_swap_that_was_made_on_one_way, counts_of_swaps, waits_in_each_mode, one_code_in_each_mode, pages_in_time,
               a_moved_sub_channel])
