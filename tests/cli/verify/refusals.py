#!/usr/bin/env python3
"""'dabplan verify': each cause, each fault of an edit and of a configuration, and the first of several. The last
line is 'N passed, M failed'."""
import rows
from codes import PROGRAMME, SMALL_SUBS
from verdicts import judged, verdict


def one_instruction(rows):
    """The cause at the only instruction of a code."""
    judged(rows, [""], (
        ("0 cost 1", "end", None),
        ("0 cost 1", "join", "0 JoinIdle"),
        ("0 cost 1", "loop 0 0", "0 CounterUnset"),
        ("0 cost 1", "jump 5", "0 Target"),
        ("0 cost 1", "test 3 1", "0 Target"),
        ("0 cost 1", "jump 0", "0 Cost"),
        ("0 cost 1", "wait 1", "0 FallsOff"),
        ("0 cost 1", "settle", "0 FallsOff"),
        ("0 cost 1", "commit in 23", "0 Notice"),
        ("0 cost 1", "commit in 24", "0 NoChange"),
        ("0 cost 1", "commit at 1002", "0 Count"),
        ("0 cost 1", "commit at 5000", "0 Count"),
        ("0 cost 1", "commit at 4996", "0 NoChange"),
    ))


def pending_swaps(rows):
    """While a swap is pending nothing is edited or committed."""
    judged(rows, [PROGRAMME], (
        ("0 cost 4", "rate sub 1 64, commit in 24, rate sub 1 96, end", "2 Pending"),
        ("0 cost 4", "rate sub 1 64, commit in 24, commit in 24, end", "2 Pending"),
        ("0 cost 4", "rate sub 1 64, commit in 24, commit at 0, end", "2 Pending"),
        ("0 cost 4", "rate sub 1 64, commit in 24, wait 26, end", "2 SwapUncertain"),
    ))


def several_at_the_opening(rows):
    """First the declarations of the first label, then its cost, then the configuration, its pages, and the instruction."""
    judged(rows, [SMALL_SUBS + ", service C221", "", SMALL_SUBS], (
        ("0 of 0 1 cost 21", "join", "0 Mismatch"),
        ("0 cost 21", "join", "0 Cost"),
        ("0 cost 20", "join", "0 Config EmptyService"),
        ("0 of 2 2 cost 20", "join", "0 Round"),
    ), period=1)
    judged(rows, [""], (
        ("0 cost 1", "join", "0 JoinIdle"),
    ))


def several_at_a_label(rows):
    """First the declarations of the label, then its cost, then the instruction."""
    judged(rows, [""], (
        ("0 cost 1, 1 counters 01 cost 21", "wait 1, join", "1 Mismatch"),
        ("0 cost 1, 1 cost 21", "wait 1, join", "1 Cost"),
        ("0 cost 1, 1 cost 1", "wait 1, join", "1 JoinIdle"),
    ))


def several_at_a_jump(rows):
    """First the counter, then the target, the declarations of its label, and its cost."""
    judged(rows, [""], (
        ("0 cost 1", "loop 0 9, end", "0 CounterUnset"),
        ("0 cost 1", "test 0 9", "0 Target"),
        ("0 cost 1, 1 counters 01 cost 20", "jump 1, end", "0 Mismatch"),
        ("0 cost 1, 1 cost 20", "jump 1, end", "0 Cost"),
    ))


def a_commit_of_nothing_before_its_pages(rows):
    """Nothing has changed, and both together would take seven pages."""
    judged(rows, [SMALL_SUBS], (
        ("0 cost 2", "commit in 24, end", "0 NoChange"),
    ))


def several_during_a_notice(rows):
    """First the cost, then the pending swap, then the instruction."""
    judged(rows, [PROGRAMME], (
        ("0 cost 3", "rate sub 1 64, commit in 24, drop sub 9", "2 Pending"),
        ("0 cost 2", "rate sub 1 64, commit in 24, drop sub 9", "2 Cost"),
        ("0 cost 3", "rate sub 1 64, commit in 24, commit in 1", "2 Pending"),
        ("0 cost 2", "rate sub 1 64, commit in 24, commit in 1", "2 Cost"),
        ("0 cost 3", "rate sub 1 64, commit in 24, commit at 9999", "2 Pending"),
        ("0 cost 2", "rate sub 1 64, commit in 24, commit at 9999", "2 Cost"),
    ))


def the_first_instruction_of_several(rows):
    """Labels past the last instruction come after all of them."""
    judged(rows, [""], (
        ("0 cost 1, 9 cost 1", "wait 1, join, jump 9, loop 0 0", "1 JoinIdle"),
        ("0 cost 1, 9 cost 1", "wait 1, jump 9, end", "2 Table"),
        ("0 cost 1, 9 cost 1", "wait 1, jump 9", "9 Table"),
    ))


def several_at_a_commit(rows):
    """First the notice or the count, then the configuration."""
    for commit, cause in (("in 23", "Notice"), ("at 1", "Count"), ("in 24", "Config Overlap 1 2"),
                          ("at 0", "Config Overlap 1 2")):
        verdict(rows, f"2 {cause}", f"sub 2 at 0 eep 3-A 64, move sub 2 at 95, commit {commit}, end", labels="0 cost 4",
                configs=[PROGRAMME])


def edited(rows, configs, table):
    """Edits, each the first instruction of a code, have this fault or none."""
    for edit, fault in table:
        verdict(rows, fault and f"0 Edit {fault}", f"{edit}, end", labels="0 cost 2", configs=configs)


def edits_of_sub_channels(rows):
    """A rate of 1,152 kbit/s takes all 864 capacity units."""
    edited(rows, [PROGRAMME], (
        ("sub 1 at 96 eep 3-A 64", "IdUsed"),
        ("sub 2 at 96 eep 3-A 33", "BadRate"),
        ("sub 2 at 800 eep 3-A 128", "PastEnd"),
        ("sub 2 at 768 eep 3-A 128", None),
        ("drop sub 2", "IdAbsent"),
        ("move sub 2 at 0", "IdAbsent"),
        ("move sub 1 at 769", "PastEnd"),
        ("move sub 1 at 768", None),
        ("rate sub 2 64", "IdAbsent"),
        ("rate sub 1 33", "BadRate"),
        ("rate sub 1 1160", "BadRate"),
        ("rate sub 1 1152", None),
    ))
    edited(rows, ["sub 1 at 96 eep 3-A 64"], (("rate sub 1 1024", None), ("rate sub 1 1032", "PastEnd")))


def edits_of_services_and_packet_components(rows):
    """0000C221 is another identifier than C221."""
    edited(rows, [PROGRAMME], (
        ("service C221", "IdUsed"),
        ("service 0000C221", None),
        ("drop service 0000C221", "IdAbsent"),
        ("audio 63 sub 1 in C221", "IdUsed"),
        ("audio 63 sub 1 in 0000C221", "IdAbsent"),
        ("drop component sub 2 in C221", "IdAbsent"),
        ("drop component sub 1 in C221", None),
        ("packet 1 groups type 60 sub 1 address 0", "BadAddress"),
        ("packet 1 groups type 60 sub 1 address 1024", "BadAddress"),
        ("packet 1 groups type 60 sub 1 address 1023", None),
        ("drop packet 1", "IdAbsent"),
    ))


def one_too_many(rows):
    """A 65th service or packet component, a 13th component of a service with 16 bits, a 12th of one with 32."""
    for edits, more, fault in (
        ([f"service {number:04X}" for number in range(64)], "service 00000000", "TableFull"),
        ([f"packet {number} groups type 60 sub 1 address 1023" for number in range(64)],
         "packet 4095 groups type 60 sub 2 address 1", "TableFull"),
        (["service C221"] + [f"carry {number} in C221" for number in range(12)], "carry 12 in C221", "TooManyComponents"),
        (["service E1C20001"] + [f"carry {number} in E1C20001" for number in range(11)], "carry 11 in E1C20001",
         "TooManyComponents"),
    ):
        for added, wanted in (([], None), ([more], f"{len(edits)} Edit {fault}")):
            verdict(rows, wanted, ", ".join(edits + added + ["end"]), labels="0 cost 255", budget=255)


def unsound(rows):
    """A fault of the configuration that a code begins with, and of one made by edits, at its commit."""
    for items, fault in (
        ("sub 1 at 0 eep 3-A 128, service C221, audio 63 sub 1 in C221", None),
        ("service C221, sub 1 at 0 eep 3-A 8, sub 2 at 96 eep 3-A 8", "EmptyService"),
        ("sub 1 at 0 eep 3-A 128, sub 2 at 95 eep 3-A 8, sub 3 at 0 eep 3-A 8", "Overlap 1 2"),
        ("service C221, audio 63 sub 1 in C221, sub 2 at 0 eep 3-A 8", "Orphan"),
        ("service C221, carry 7 in C221, sub 2 at 0 eep 3-A 8", "Orphan"),
        ("packet 1 groups type 60 sub 3 address 1, service C221, sub 2 at 0 eep 3-A 8", "Orphan"),
        ("packet 1 groups type 60 sub 2 address 9, packet 2 groups type 60 sub 2 address 9, sub 2 at 0 eep 3-A 8",
         "AddressUsed"),
        ("packet 1 groups type 60 sub 2 address 9, packet 2 groups type 60 sub 2 address 10, sub 2 at 0 eep 3-A 8", None),
    ):
        verdict(rows, fault and f"0 Config {fault}", "end", configs=[items])
        verdict(rows, fault and f"3 Config {fault}", f"{items}, commit in 24, end", labels="0 cost 5")


def shared_units(rows):
    """Sub-channels of 4-A that share a capacity unit, wherever they are: each 8 kbit/s take four of the 864."""
    def subs(*spans):
        return ", ".join(f"sub {number} at {start} eep 4-A {kbits}" for number, start, kbits in spans)

    for spans, fault in (
        (((1, 31, 8), (2, 34, 8)), "Overlap 1 2"), (((1, 31, 8), (2, 35, 8)), None), (((1, 35, 8), (2, 32, 8)), "Overlap 1 2"),
        (((1, 0, 1728), (2, 860, 8)), "Overlap 1 2"), (((1, 0, 1720), (2, 860, 8)), None),
        (((1, 28, 8), (2, 32, 8), (3, 36, 8)), None), (((7, 4, 1720), (60, 0, 8), (63, 3, 8)), "Overlap 7 63"),
    ):
        verdict(rows, fault and f"0 Config {fault}", "end", configs=[subs(*spans)])
    three, two, most = subs((1, 30, 8), (2, 30, 8), (3, 30, 8)), subs((1, 0, 8), (2, 4, 8)), ", ".join(
        f"sub {number} at 0 eep 4-A 1728" for number in range(64))
    for edits, fault in (
        (three, "Overlap 1 2"), (f"{three}, drop sub 1", "Overlap 2 3"), (f"{three}, drop sub 1, drop sub 3", None),
        (f"{two}, move sub 2 at 3", "Overlap 1 2"), (f"{two}, move sub 2 at 3, move sub 2 at 860", None),
        (f"{two}, move sub 2 at 860, rate sub 1 1728", "Overlap 1 2"),
        (f"{two}, move sub 2 at 860, rate sub 1 1728, rate sub 1 1720", None), (most, "Overlap 0 1"),
        (most + "".join(f", drop sub {number}" for number in range(63)), None),
    ):
        place = len(edits.split(","))
        verdict(rows, fault and f"{place} Config {fault}", f"{edits}, commit in 24, end", labels=f"0 cost {place + 2}",
                budget=255)


if __name__ == "__main__":
    rows.main([one_instruction, pending_swaps, several_at_the_opening, several_at_a_label, several_at_a_jump,
               several_at_a_commit, a_commit_of_nothing_before_its_pages, several_during_a_notice,
               the_first_instruction_of_several, edits_of_sub_channels, edits_of_services_and_packet_components,
               one_too_many, unsound, shared_units])
