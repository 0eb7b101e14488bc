#!/usr/bin/env python3
"""Directed cases: expected reports written by hand from document 01.

    cases.py second     holds second/second.c to them
    cases.py proved     holds the proved programs, as `rt ci` built them, to the same

A case is a list of `step -> answer`, in lines or divided by semicolons; a step is written
without its keys: `start 1 4 1,2` is `step=start bench=1 value=4 world=1,2`. Behind `---`
come the report's lines about benches or senders, as they are printed. The totals in the
report's last line are counted from the answers.
"""

import os
import re
import subprocess
import sys
import tempfile
import unittest

HERE = os.path.dirname(os.path.abspath(__file__))
sys.path.insert(0, HERE)
import generate  # noqa: E402
import programs  # noqa: E402

KEYS = {"start": ("bench", "value", "world"), "arrive": ("bench", "from"), "notice": ("bench", "from"),
        "join": ("sender", "slot"), "sweep": ("sender", "tag"), "close": ("sender",),
        "end": ("sender", "slot"), "handout": ("room",)}  # any other step has a bench alone

FOLDER = tempfile.TemporaryDirectory()
WHICH = "second"
WORDS = {}  # of each kind of text: the words that start its program


def setUpModule():
    if WHICH == "proved":
        WORDS.update(run=programs.proved("run"), ledger=programs.proved("ledger_run"))
    else:
        program = programs.second(FOLDER.name)
        WORDS.update(run=[program, "run"], ledger=[program, "ledger"])


def tearDownModule():
    FOLDER.cleanup()


def play(kind, data):
    """What the program prints for these bytes."""
    return subprocess.run(WORDS[kind], input=data, stdout=subprocess.PIPE, check=True).stdout


def report(answers, others):
    """A report from the answers (the first word of each is the number) and the other lines."""
    rows = [f"line={i} answer={a}" for i, a in enumerate(answers, 1)] + others
    refused = sum(a.split()[0] != "0" for a in answers)
    rows.append(f"lines={len(answers)} refused={refused}")
    return "".join(row + "\n" for row in rows).encode()


def in_full(step):
    """The text line of a step written without its keys."""
    name, *values = step.split()
    pairs = zip(KEYS.get(name, ("bench",)), values, strict=True)
    return " ".join([f"step={name}"] + [f"{key}={value}" for key, value in pairs])


class Case(unittest.TestCase):
    maxDiff = None

    def check(self, kind, case):
        head, _, tail = case.partition("---\n")
        steps = [row.split(" -> ") for row in re.split("[;\n]", head) if row.strip()]
        data = "".join(in_full(step) + "\n" for step, _ in steps).encode()
        others = [row.strip() for row in tail.splitlines() if row.strip()]
        expected = report([answer.strip() for _, answer in steps], others)
        self.assertEqual(play(kind, data).decode(), expected.decode())

    def run_case(self, case):
        self.check("run", case)

    def ledger_case(self, case):
        self.check("ledger", case)


class WholeCase(Case):
    def test_byte_for_byte(self):
        given = (b"step=start bench=1 value=9 world=1,2,3\n"
                 b"step=start bench=2 value=8 world=1,2,3\n"
                 b"step=abstain bench=3\n"
                 b"step=turn bench=1\n"
                 b"step=arrive bench=1 from=2\n"
                 b"step=arrive bench=1 from=3\n"
                 b"step=turn bench=1\n")
        expected = (b"line=1 answer=0\n"
                    b"line=2 answer=0\n"
                    b"line=3 answer=0\n"
                    b"line=4 answer=11\n"
                    b"line=5 answer=0\n"
                    b"line=6 answer=0\n"
                    b"line=7 answer=0\n"
                    b"bench=1 state=running round=2 value=none\n"
                    b"bench=2 state=running round=1 value=none\n"
                    b"bench=3 state=abstained round=0 value=none\n"
                    b"lines=7 refused=1\n")
        self.assertEqual(play("run", given), expected)


class Examples(Case):
    """P1 to P10."""

    def test_p1(self):
        self.run_case("""
            start 1 5 1 -> 0 ; turn 1 -> 0
            ---
            bench=1 state=decided round=1 value=5
        """)

    def test_p2(self):
        self.run_case("""
            start 1 4 1,2 -> 0 ; start 2 4 1,2 -> 0 ; arrive 1 2 -> 0 ; arrive 2 1 -> 0
            turn 1 -> 0 ; turn 2 -> 0
            ---
            bench=1 state=decided round=1 value=4
            bench=2 state=decided round=1 value=4
        """)

    def test_p3(self):
        start = """
            start 1 4 1,2 -> 0 ; start 2 4 1,2,3 -> 0 ; abstain 3 -> 0 ; arrive 1 2 -> 0
            arrive 1 3 -> 0 ; arrive 2 1 -> 0 ; arrive 2 3 -> 0 ; turn 2 -> 0 ; turn 1 -> 0
        """
        self.run_case(start + """
            ---
            bench=1 state=running round=2 value=none
            bench=2 state=decided round=1 value=4
            bench=3 state=abstained round=0 value=none
        """)
        self.run_case(start + """
            turn 1 -> 11 ; arrive 1 2 -> 0 ; turn 1 -> 0
            ---
            bench=1 state=decided round=2 value=4
            bench=2 state=decided round=1 value=4
            bench=3 state=abstained round=0 value=none
        """)

    def test_p4(self):
        self.run_case("""
            start 1 9 1,2 -> 0 ; start 2 4 1,2 -> 0 ; leave 2 -> 0 ; arrive 1 2 -> 0
            arrive 1 2 -> 0 ; arrive 1 2 -> 8 ; turn 1 -> 0 ; turn 1 -> 0
            ---
            bench=1 state=decided round=2 value=4
            bench=2 state=left round=1 value=none
        """)

    def test_p5(self):
        self.run_case("""
            start 1 7 1,2,3 -> 0 ; start 2 7 1,2,3 -> 0 ; start 3 3 1,2,3 -> 0 ; arrive 1 3 -> 0
            fail 3 -> 0 ; notice 2 3 -> 0 ; arrive 1 2 -> 0 ; arrive 2 1 -> 0 ; turn 1 -> 0
            turn 2 -> 0 ; turn 1 -> 11 ; turn 2 -> 11 ; notice 1 3 -> 0 ; arrive 1 2 -> 0
            arrive 2 1 -> 0 ; turn 1 -> 0 ; turn 2 -> 0 ; arrive 1 2 -> 0 ; arrive 2 1 -> 0
            turn 1 -> 0 ; turn 2 -> 0
            ---
            bench=1 state=decided round=3 value=3
            bench=2 state=decided round=3 value=3
            bench=3 state=failed round=1 value=none
        """)

    def test_p6(self):
        self.run_case("""
            start 1 5 1 -> 0 ; start 2 5 1,2 -> 7 ; start 2 5 2 -> 6
            ---
            bench=1 state=running round=1 value=none
        """)

    def test_p7(self):
        self.run_case("""
            start 1 5 1,2 -> 0 ; start 2 5 1,2 -> 0 ; notice 1 2 -> 10 ; arrive 1 2 -> 0
            arrive 1 2 -> 8 ; fail 2 -> 0 ; arrive 1 2 -> 8 ; notice 1 2 -> 0 ; arrive 1 2 -> 9
            ---
            bench=1 state=running round=1 value=none
            bench=2 state=failed round=1 value=none
        """)

    def test_p8(self):
        self.run_case("""
            start 1 65536 1 -> 4 ; start 1 65535 1 -> 0 ; turn 017 -> 20 ; turn 17 -> 1
            ---
            bench=1 state=running round=1 value=none
        """)

    def test_p9(self):
        self.ledger_case("""
            join 1 0 -> 0 ; join 2 0 -> 0 ; sweep 2 97 -> 0 ; sweep 1 98 -> 0 ; sweep 1 99 -> 0
            close 1 -> 0 ; close 2 -> 0 ; close 1 -> 0 ; close 2 -> 0
            handout 3 -> 0 count=3 tags=98,99,97
            ---
            sender=1 first=0 open=2 end=none
            sender=2 first=0 open=2 end=none
            next=1 held=0
        """)

    def test_p10(self):
        self.ledger_case("""
            join 1 0 -> 0 ; close 1 -> 0 ; end 1 2 -> 18 ; end 1 1 -> 0 ; end 1 1 -> 16
            ---
            sender=1 first=0 open=1 end=1
            next=0 held=0
        """)


class BenchRules(Case):
    """Sentences of 'A bench and its line' where a quick program goes wrong."""

    def test_fresh_bench_takes_messages_and_they_count_later(self):
        self.run_case("""
            start 2 4 1,2 -> 0 ; arrive 1 2 -> 0 ; start 1 4 1,2 -> 0 ; turn 1 -> 0 ; turn 2 -> 11
            ---
            bench=1 state=decided round=1 value=4
            bench=2 state=running round=1 value=none
        """)

    def test_fresh_bench_that_took_messages_is_not_reported(self):
        self.run_case("""
            abstain 2 -> 0 ; arrive 1 2 -> 0 ; fail 3 -> 0 ; notice 1 3 -> 0
            ---
            bench=2 state=abstained round=0 value=none
            bench=3 state=failed round=0 value=none
        """)

    def test_failure_noticed_while_fresh_counts_later(self):
        self.run_case("""
            start 2 4 1,2 -> 0 ; fail 2 -> 0 ; notice 1 2 -> 0 ; start 1 6 1,2 -> 0
            arrive 1 2 -> 9 ; turn 1 -> 0 ; turn 1 -> 0
            ---
            bench=1 state=decided round=2 value=6
            bench=2 state=failed round=1 value=none
        """)

    def test_heard_even_if_a_notice_came_later(self):
        self.run_case("""
            start 1 4 1,2 -> 0 ; start 2 4 1,2 -> 0 ; arrive 1 2 -> 0 ; fail 2 -> 0
            notice 1 2 -> 0 ; turn 1 -> 0
            ---
            bench=1 state=decided round=1 value=4
            bench=2 state=failed round=1 value=none
        """)

    def test_heard_in_one_round_missed_in_the_next(self):
        self.run_case("""
            start 1 8 1,2 -> 0 ; start 2 4 1,2 -> 0 ; arrive 1 2 -> 0 ; fail 2 -> 0 ; turn 1 -> 0
            turn 1 -> 11 ; notice 1 2 -> 0 ; turn 1 -> 0 ; turn 1 -> 0
            ---
            bench=1 state=decided round=3 value=4
            bench=2 state=failed round=1 value=none
        """)

    def test_out_taken_before_the_notice_still_excuses(self):
        self.run_case("""
            abstain 2 -> 0 ; fail 2 -> 0 ; start 1 5 1,2 -> 0 ; arrive 1 2 -> 0 ; notice 1 2 -> 0
            turn 1 -> 0
            ---
            bench=1 state=decided round=1 value=5
            bench=2 state=failed round=0 value=none
        """)

    def test_out_not_taken_before_the_notice_is_lost(self):
        self.run_case("""
            abstain 2 -> 0 ; fail 2 -> 0 ; start 1 5 1,2 -> 0 ; notice 1 2 -> 0 ; arrive 1 2 -> 9
            turn 1 -> 0 ; turn 1 -> 0
            ---
            bench=1 state=decided round=2 value=5
            bench=2 state=failed round=0 value=none
        """)

    def test_round_message_not_taken_before_the_notice_is_lost(self):
        self.run_case("""
            start 1 7 1,2 -> 0 ; start 2 3 1,2 -> 0 ; fail 2 -> 0 ; notice 1 2 -> 0 ; turn 1 -> 0
            turn 1 -> 0
            ---
            bench=1 state=decided round=2 value=7
            bench=2 state=failed round=1 value=none
        """)

    def test_notice_by_one_bench_closes_only_its_own_line(self):
        self.run_case("""
            start 3 3 1,2,3 -> 0 ; fail 3 -> 0 ; notice 1 3 -> 0 ; arrive 1 3 -> 9 ; arrive 2 3 -> 0
            arrive 2 3 -> 8 ; notice 2 3 -> 0 ; notice 2 3 -> 9
            ---
            bench=3 state=failed round=1 value=none
        """)

    def test_what_is_on_the_lines_of_a_failed_bench_may_still_arrive(self):
        self.run_case("""
            start 1 9 1,2 -> 0 ; start 2 4 1,2 -> 0 ; arrive 2 1 -> 0 ; turn 2 -> 0 ; fail 2 -> 0
            arrive 1 2 -> 0 ; arrive 1 2 -> 0 ; arrive 1 2 -> 8 ; turn 1 -> 0 ; turn 1 -> 0
            ---
            bench=1 state=decided round=2 value=4
            bench=2 state=failed round=2 value=none
        """)

    def test_message_of_a_later_round_is_kept(self):
        self.run_case("""
            start 1 9 1,2 -> 0 ; start 2 4 1,2 -> 0 ; arrive 2 1 -> 0 ; turn 2 -> 0
            arrive 1 2 -> 0 ; arrive 1 2 -> 0 ; turn 1 -> 0 ; turn 1 -> 0 ; turn 2 -> 11
            arrive 2 1 -> 0 ; turn 2 -> 0 ; arrive 2 1 -> 3
            ---
            bench=1 state=decided round=2 value=4
            bench=2 state=decided round=2 value=4
        """)

    def test_leaving_sends_out_only_once(self):
        self.run_case("""
            start 1 5 1 -> 0 ; turn 1 -> 0 ; leave 1 -> 0 ; abstain 2 -> 0 ; leave 2 -> 0
            leave 3 -> 0 ; arrive 4 1 -> 0 ; arrive 4 1 -> 0 ; arrive 4 1 -> 8 ; arrive 4 2 -> 0
            arrive 4 2 -> 8 ; arrive 4 3 -> 0 ; arrive 4 3 -> 8
            ---
            bench=1 state=left round=1 value=5
            bench=2 state=left round=0 value=none
            bench=3 state=left round=0 value=none
        """)

    def test_failing_sends_nothing_from_any_state(self):
        self.run_case("""
            start 1 0 1 -> 0 ; turn 1 -> 0 ; fail 1 -> 0 ; abstain 2 -> 0 ; fail 2 -> 0
            fail 3 -> 0 ; arrive 4 1 -> 0 ; arrive 4 1 -> 0 ; arrive 4 1 -> 8 ; arrive 4 2 -> 0
            arrive 4 2 -> 8 ; arrive 4 3 -> 8
            ---
            bench=1 state=failed round=1 value=0
            bench=2 state=failed round=0 value=none
            bench=3 state=failed round=0 value=none
        """)

    def test_turn_knows_only_what_was_taken(self):
        self.run_case("""
            start 1 5 1,2,3 -> 0 ; abstain 2 -> 0 ; fail 3 -> 0 ; turn 1 -> 11 ; arrive 1 2 -> 0
            turn 1 -> 11 ; notice 1 3 -> 0 ; turn 1 -> 0 ; turn 1 -> 0
            ---
            bench=1 state=decided round=2 value=5
            bench=2 state=abstained round=0 value=none
            bench=3 state=failed round=0 value=none
        """)

    def test_missed_member_prevents_a_decision_even_if_all_values_are_equal(self):
        self.run_case("""
            start 1 7 1,2,3 -> 0 ; start 2 7 1,2,3 -> 0 ; fail 3 -> 0 ; notice 1 3 -> 0
            arrive 1 2 -> 0 ; turn 1 -> 0
            ---
            bench=1 state=running round=2 value=none
            bench=2 state=running round=1 value=none
            bench=3 state=failed round=0 value=none
        """)

    def test_the_least_value_is_taken_not_the_first_nor_the_last(self):
        self.run_case("""
            start 1 9 1,2,3,4 -> 0 ; start 2 6 1,2,3,4 -> 0 ; start 3 5 1,2,3,4 -> 0
            start 4 7 1,2,3,4 -> 0 ; leave 2 -> 0 ; leave 3 -> 0 ; leave 4 -> 0 ; arrive 1 4 -> 0
            arrive 1 3 -> 0 ; arrive 1 2 -> 0 ; arrive 1 4 -> 0 ; arrive 1 3 -> 0 ; arrive 1 2 -> 0
            turn 1 -> 0 ; turn 1 -> 0 ; turn 1 -> 3
            ---
            bench=1 state=decided round=2 value=5
            bench=2 state=left round=1 value=none
            bench=3 state=left round=1 value=none
            bench=4 state=left round=1 value=none
        """)

    def test_excused_member_is_not_kept_in_the_next_world(self):
        # else bench 1's round 2 world would be wider than bench 2's
        self.run_case("""
            start 1 9 1,2,3 -> 0 ; start 2 4 1,2 -> 0 ; abstain 3 -> 0 ; arrive 1 2 -> 0
            arrive 1 3 -> 0 ; arrive 2 1 -> 0 ; turn 1 -> 0 ; turn 2 -> 0 ; arrive 2 1 -> 0
            turn 2 -> 0
            ---
            bench=1 state=running round=2 value=none
            bench=2 state=decided round=2 value=4
            bench=3 state=abstained round=0 value=none
        """)

    def test_missed_member_is_not_kept_in_the_next_world(self):
        # else bench 1's round 2 world would be wider than bench 2's
        self.run_case("""
            start 1 4 1,2,3 -> 0 ; start 2 4 1,2 -> 0 ; fail 3 -> 0 ; notice 1 3 -> 0
            arrive 1 2 -> 0 ; arrive 2 1 -> 0 ; turn 1 -> 0 ; turn 2 -> 0 ; arrive 2 1 -> 0
            turn 2 -> 0
            ---
            bench=1 state=running round=2 value=none
            bench=2 state=decided round=2 value=4
            bench=3 state=failed round=0 value=none
        """)

    def test_a_member_that_failed_is_kept_in_the_next_world_if_it_was_heard(self):
        # bench 2's world of round 2 lacks 3, bench 1's has it: bench 2 may not decide
        self.run_case("""
            start 1 4 1,2,3 -> 0 ; start 2 4 1,2,3 -> 0 ; start 3 4 1,2,3,4 -> 0 ; fail 4 -> 0
            arrive 1 3 -> 0 ; arrive 1 2 -> 0 ; fail 3 -> 0 ; notice 1 3 -> 0 ; notice 2 3 -> 0
            arrive 2 1 -> 0 ; turn 1 -> 0 ; turn 2 -> 0 ; arrive 2 1 -> 0 ; turn 2 -> 0
            ---
            bench=1 state=running round=2 value=none
            bench=2 state=running round=3 value=none
            bench=3 state=failed round=1 value=none
            bench=4 state=failed round=0 value=none
        """)

    def test_the_message_of_a_bench_outside_the_world_does_not_count(self):
        self.run_case("""
            start 1 3 1,2 -> 0 ; leave 1 -> 0 ; start 2 9 2 -> 0 ; arrive 2 1 -> 0 ; arrive 2 1 -> 0
            turn 2 -> 0
            ---
            bench=1 state=left round=1 value=none
            bench=2 state=decided round=1 value=9
        """)

    def test_decision_is_the_own_value_of_the_round_not_the_proposal(self):
        self.run_case("""
            start 1 2 1,2 -> 0 ; start 2 1 1,2 -> 0 ; arrive 1 2 -> 0 ; turn 1 -> 0 ; leave 2 -> 0
            arrive 1 2 -> 0 ; turn 1 -> 0 ; fail 1 -> 0
            ---
            bench=1 state=failed round=2 value=1
            bench=2 state=left round=1 value=none
        """)

    def test_a_narrower_world_agrees_a_wider_one_does_not(self):
        self.run_case("""
            start 1 4 1,2,3 -> 0 ; start 2 4 1,2 -> 0 ; abstain 3 -> 0 ; arrive 1 2 -> 0
            arrive 1 3 -> 0 ; arrive 2 1 -> 0 ; turn 1 -> 0 ; turn 2 -> 0
            ---
            bench=1 state=decided round=1 value=4
            bench=2 state=running round=2 value=none
            bench=3 state=abstained round=0 value=none
        """)

    def test_one_failure_a_round_leads_to_round_16(self):
        # in round r bench r fails unheard; the others hear each other, miss it and go on
        world, rows = ",".join(map(str, range(1, 17))), []
        rows += [f"start {b} 5 {world}" for b in range(1, 17)]
        for r in range(1, 16):
            rows.append(f"fail {r}")
            for b in range(r + 1, 17):
                rows += [f"arrive {b} {f}" for f in range(r + 1, 17) if f != b]
                rows += [f"notice {b} {r}"]
            rows += [f"turn {b}" for b in range(r + 1, 17)]
        rows.append("turn 16")
        expected = report(["0"] * len(rows), [f"bench={b} state=failed round={b} value=none"
                                              for b in range(1, 16)]
                          + ["bench=16 state=decided round=16 value=5"])
        self.assertEqual(play("run", "\n".join(map(in_full, rows)).encode()), expected)

    def test_sixteen_benches_decide_in_round_1(self):
        world = ",".join(map(str, range(1, 17)))
        rows = [f"step=start bench={b} value=65535 world={world}" for b in range(1, 17)]
        rows += [f"step=arrive bench={b} from={f}" for b in range(1, 17) for f in range(1, 17)
                 if b != f]
        rows += [f"step=turn bench={b}" for b in range(16, 0, -1)]
        expected = report(["0"] * len(rows), [f"bench={b} state=decided round=1 value=65535"
                                              for b in range(1, 17)])
        self.assertEqual(play("run", "\n".join(rows).encode()), expected)


class RunRefusals(Case):
    """Conditions and order of the refusals of a run text."""

    def test_order_of_start(self):
        self.run_case("""
            start 1 5 1 -> 0 ; start 17 65536 2 -> 1 ; start 0 65536 2 -> 1 ; start 1 65536 2 -> 3
            start 2 65536 3 -> 4 ; start 2 99999 1,2 -> 4 ; start 2 5 3 -> 5 ; start 2 5 2 -> 6
            start 2 5 1,2 -> 7
            ---
            bench=1 state=running round=1 value=none
        """)

    def test_6_counts_decided_but_not_abstained_left_or_failed(self):
        self.run_case("""
            abstain 3 -> 0 ; leave 4 -> 0 ; fail 5 -> 0 ; start 1 5 1 -> 0 ; turn 1 -> 0
            start 2 5 2 -> 6 ; start 2 5 1,2 -> 7 ; leave 1 -> 0 ; start 2 5 2 -> 7
            ---
            bench=1 state=left round=1 value=5
            bench=3 state=abstained round=0 value=none
            bench=4 state=left round=0 value=none
            bench=5 state=failed round=0 value=none
        """)

    def test_7_holds_for_benches_that_left_or_failed(self):
        for stop, state in (("leave", "left"), ("fail", "failed")):
            self.run_case(f"""
                start 1 5 1,3 -> 0 ; {stop} 1 -> 0 ; start 2 5 2 -> 7 ; start 2 5 1,2 -> 7
                start 3 5 3 -> 0 ; start 2 5 2 -> 6 ; start 2 5 2,3 -> 7
                ---
                bench=1 state={state} round=1 value=none
                bench=3 state=running round=1 value=none
            """)

    def test_worlds_of_benches_that_never_started_do_not_count(self):
        self.run_case("""
            start 1 65536 1 -> 4 ; start 2 1 1 -> 5 ; abstain 1 -> 0 ; start 2 1 2 -> 0
            start 3 1 2,3 -> 7
            ---
            bench=1 state=abstained round=0 value=none
            bench=2 state=running round=1 value=none
        """)

    def test_order_of_arrive_and_notice(self):
        self.run_case("""
            abstain 1 -> 0 ; arrive 17 17 -> 1 ; arrive 1 17 -> 1 ; arrive 0 1 -> 1
            notice 1 0 -> 1 ; notice 99999 99999 -> 1 ; arrive 1 1 -> 2 ; notice 1 1 -> 2
            arrive 1 2 -> 3 ; notice 1 2 -> 3 ; arrive 2 2 -> 2 ; arrive 2 3 -> 8 ; notice 2 3 -> 10
            notice 2 1 -> 10 ; fail 1 -> 0 ; notice 2 1 -> 0 ; notice 2 1 -> 9 ; arrive 2 1 -> 9
            ---
            bench=1 state=failed round=0 value=none
        """)

    def test_9_comes_before_8_on_an_empty_line(self):
        self.run_case("""
            fail 1 -> 0 ; arrive 2 1 -> 8 ; notice 2 1 -> 0 ; arrive 2 1 -> 9
            ---
            bench=1 state=failed round=0 value=none
        """)

    def test_notice_of_a_bench_that_left_is_10(self):
        self.run_case("""
            leave 1 -> 0 ; fail 1 -> 3 ; notice 2 1 -> 10
            ---
            bench=1 state=left round=0 value=none
        """)

    def test_states_that_do_not_allow_a_step(self):
        before = {"decided": "start bench=1 value=5 world=1|turn bench=1", "abstained": "abstain bench=1",
                  "left": "leave bench=1", "failed": "fail bench=1"}
        steps = ["start bench=1 value=5 world=1", "abstain bench=1", "turn bench=1",
                 "arrive bench=1 from=2", "notice bench=1 from=2", "leave bench=1", "fail bench=1"]
        for state, first in before.items():
            first = first.split("|")
            started = len(first) == 2
            free = state in ("decided", "abstained")  # may still leave, and then not fail
            answers = ["0"] * len(first) + ["3"] * 5 + (["0", "3"] if free else ["3", "3"])
            data = "".join(f"step={step}\n" for step in first + steps).encode()
            value = "5" if started else "none"
            bench = f"bench=1 state={'left' if free else state} round={int(started)} value={value}"
            self.assertEqual(play("run", data), report(answers, [bench]))

    def test_steps_of_a_running_and_of_a_fresh_bench(self):
        self.run_case("""
            turn 1 -> 3 ; start 1 5 1,2 -> 0 ; abstain 1 -> 3 ; start 1 5 1,2 -> 3 ; turn 1 -> 11
            turn 17 -> 1 ; turn 0 -> 1 ; fail 16 -> 0 ; abstain 17 -> 1 ; leave 99999 -> 1
            fail 0 -> 1
            ---
            bench=1 state=running round=1 value=none
            bench=16 state=failed round=0 value=none
        """)

    def test_refusals_change_nothing(self):
        self.run_case("""
            start 1 65536 1,2 -> 4 ; start 1 6 2 -> 5 ; arrive 2 1 -> 8 ; notice 2 1 -> 10
            start 1 6 1,2 -> 0 ; start 2 5 2 -> 6 ; arrive 1 2 -> 8 ; turn 1 -> 11 ; turn 1 -> 11
            arrive 2 1 -> 0 ; arrive 2 1 -> 8 ; start 2 6 1,2 -> 0 ; turn 2 -> 0
            ---
            bench=1 state=running round=1 value=none
            bench=2 state=decided round=1 value=6
        """)


class RunText(Case):
    """The grammar of run texts, the report and the limits of size."""

    def test_malformed_lines_change_nothing_and_reading_goes_on(self):
        self.assertGreater(len(generate.MALFORMED), 50)
        more = ["step=abstain bench=3 bench=3", "step=abstain bench=3\x0b", "\xef\xbb\xbfstep=abstain bench=3",
                "step=abstain bench=3=", "step=abstain bench=0x3", "step=abstain bench=3.0",
                "step=abstain  bench=3", "step=abstain bench=", "step=abstain", "step=ABSTAIN bench=3",
                "step=abstain bench=000003", "step=abstain bench=4294967299", "x" * 60000,
                "step=abstain bench=18446744073709551619", "step=arrive bench=3 from=4 ",
                "step=arrive bench=3  from=4", "step=arrive bench=3 from=4,", "step=arrive bench=3 form=4",
                "step=start bench=3 value=1 world=3 ", "step=start bench=3 value=1 world=3,16,15",
                "step=start bench=3 value=1 world=3,00016", "step=start bench=3 value=1 world=3,18"]
        for line in generate.MALFORMED + more:
            data = ("step=abstain bench=1\n" + line + "\nstep=abstain bench=2").encode("latin-1")
            expected = report(["0", "20", "0"], ["bench=1 state=abstained round=0 value=none",
                                                 "bench=2 state=abstained round=0 value=none"])
            self.assertEqual(play("run", data), expected, line)

    def test_malformed_comes_before_every_other_refusal(self):
        self.run_case("""
            start 17 65536 0 -> 20 ; start 100000 1 1 -> 20 ; start 1 100000 1 -> 20
            start 1 1 17 -> 20 ; start 1 1 0 -> 20 ; arrive 17 017 -> 20
            ---
        """)

    def test_numbers_at_their_ends(self):
        self.run_case("""
            start 16 0 1,2,3,4,5,6,7,8,9,10,11,12,13,14,15,16 -> 0 ; start 1 65535 1,16 -> 0
            start 2 99999 2 -> 4 ; turn 99999 -> 1 ; arrive 1 99999 -> 1 ; arrive 1 16 -> 0
            arrive 16 1 -> 0 ; fail 257 -> 1 ; fail 65537 -> 1 ; abstain 65538 -> 1
            arrive 1 272 -> 1 ; arrive 1 65552 -> 1 ; start 65538 1 1,2,16 -> 1
            ---
            bench=1 state=running round=1 value=none
            bench=16 state=running round=1 value=none
        """)

    def test_ends_of_texts(self):
        one = "bench=1 state=abstained round=0 value=none"
        self.assertEqual(play("run", b""), b"lines=0 refused=0\n")
        self.assertEqual(play("run", b"\n"), b"line=1 answer=20\nlines=1 refused=1\n")
        self.assertEqual(play("run", b"\n\n"),
                         b"line=1 answer=20\nline=2 answer=20\nlines=2 refused=2\n")
        self.assertEqual(play("run", b"step=abstain bench=1"), report(["0"], [one]))
        self.assertEqual(play("run", b"step=abstain bench=1\n"), report(["0"], [one]))
        self.assertEqual(play("run", b"step=abstain bench=1\n\n"), report(["0", "20"], [one]))
        self.assertEqual(play("run", b"step=abstain bench=1\r\n"), report(["20"], []))
        self.assertEqual(play("run", b"\nstep=abstain bench=1"), report(["20", "0"], [one]))

    def test_sizes(self):
        for kind, tail in (("run", b"step=abstain bench=1"), ("ledger", b"step=handout room=0")):
            rest = {"run": ["bench=1 state=abstained round=0 value=none"], "ledger": ["next=1 held=0"]}
            none = {"run": [], "ledger": ["next=0 held=0"]}
            done = {"run": "0", "ledger": "0 count=0"}
            for size in (65535, 65536):
                self.assertEqual(play(kind, b"\n" * size), report(["20"] * size, none[kind]))
                self.assertEqual(play(kind, b"x" * size), report(["20"], none[kind]))
                self.assertEqual(play(kind, b"x" * (size - len(tail) - 1) + b"\n" + tail),
                                 report(["20", done[kind]], rest[kind]))
                self.assertEqual(play(kind, b"x" * (size - len(tail) - 2) + b"\n" + tail + b"\n"),
                                 report(["20", done[kind]], rest[kind]))
            for size in (65537, 65538, 70000, 1000000):
                for data in (b"\n" * size, b"x" * size, b"x" * (size - 1) + b"\n",
                             tail + b"\n" * (size - len(tail))):
                    self.assertEqual(play(kind, data), b"refused=23\n")


class LedgerRules(Case):
    """Sentences of 'The ledger' and of the script page."""

    def test_the_script_page(self):
        self.assertEqual(play("ledger", b""), b"next=0 held=0\nlines=0 refused=0\n")
        self.assertEqual(play("ledger", b"\n"), b"line=1 answer=20\nnext=0 held=0\nlines=1 refused=1\n")

    def test_slots_without_members_are_handed_out_empty(self):
        self.ledger_case("""
            handout 0 -> 0 count=0 ; join 1 0 -> 14 ; join 1 3 -> 0 ; sweep 1 0 -> 0
            handout 0 -> 0 count=0 ; handout 0 -> 24 ; close 1 -> 0 ; handout 0 -> 0 count=0
            handout 0 -> 24 ; close 1 -> 0 ; handout 0 -> 22 ; handout 1 -> 0 count=1 tags=0
            ---
            sender=1 first=3 open=5 end=none
            next=4 held=0
        """)

    def test_a_slot_waits_for_the_one_after_it(self):
        start = """
            join 1 0 -> 0 ; join 2 0 -> 0 ; sweep 1 10 -> 0 ; sweep 2 20 -> 0 ; close 2 -> 0
            handout 9 -> 24 ; close 1 -> 0 ; handout 9 -> 24 ; sweep 1 11 -> 0 ; sweep 2 21 -> 0
            close 1 -> 0 ; handout 9 -> 24 ; close 2 -> 0 ; handout 9 -> 0 count=2 tags=10,20
        """
        self.ledger_case(start + """
            ---
            sender=1 first=0 open=2 end=none
            sender=2 first=0 open=2 end=none
            next=1 held=2
        """)
        self.ledger_case(start + """
            handout 9 -> 24 ; close 1 -> 0 ; handout 9 -> 24 ; close 2 -> 0
            handout 9 -> 0 count=2 tags=11,21
            ---
            sender=1 first=0 open=3 end=none
            sender=2 first=0 open=3 end=none
            next=2 held=0
        """)

    def test_a_member_of_the_slot_after_it_alone_holds_a_slot_up(self):
        self.ledger_case("""
            join 1 0 -> 0 ; sweep 1 10 -> 0 ; close 1 -> 0 ; close 1 -> 0 ; join 3 2 -> 0
            join 2 1 -> 0 ; sweep 2 21 -> 0 ; handout 9 -> 24 ; close 2 -> 0
            handout 9 -> 0 count=1 tags=10 ; handout 9 -> 24
            ---
            sender=1 first=0 open=2 end=none
            sender=2 first=1 open=2 end=none
            sender=3 first=2 open=2 end=none
            next=1 held=1
        """)

    def test_a_slot_without_members_waits_for_the_one_after_it(self):
        self.ledger_case("""
            join 1 1 -> 0 ; handout 0 -> 24 ; close 1 -> 0 ; handout 0 -> 0 count=0 ; handout 0 -> 24
            ---
            sender=1 first=1 open=2 end=none
            next=1 held=0
        """)
        self.ledger_case("""
            join 1 1 -> 0 ; handout 0 -> 24 ; end 1 1 -> 0 ; handout 0 -> 0 count=0
            ---
            sender=1 first=1 open=1 end=1
            next=1 held=0
        """)

    def test_the_colleges_case(self):
        # bench 5 lacks sender 2's closing of 30, and 30 is decided; bench 4 has it, and has not handed 30 out
        self.ledger_case("handout 0 -> 0 count=0\n" * 29 + """
            join 2 29 -> 0 ; join 4 29 -> 0 ; join 5 29 -> 0
            sweep 2 229 -> 0 ; sweep 4 429 -> 0 ; sweep 5 529 -> 0 ; close 2 -> 0 ; close 4 -> 0 ; close 5 -> 0
            sweep 2 230 -> 0 ; sweep 4 430 -> 0 ; sweep 5 530 -> 0 ; close 2 -> 0 ; close 4 -> 0 ; close 5 -> 0
            handout 16 -> 0 count=3 tags=229,429,529 ; handout 16 -> 24 ; end 2 30 -> 0 ; handout 16 -> 24
            sweep 4 431 -> 0 ; sweep 5 531 -> 0 ; close 4 -> 0 ; close 5 -> 0
            handout 16 -> 0 count=2 tags=430,530
            ---
            sender=2 first=29 open=31 end=30
            sender=4 first=29 open=32 end=none
            sender=5 first=29 open=32 end=none
            next=31 held=2
        """)

    def test_order_of_tags(self):
        self.ledger_case("""
            join 16 0 -> 0 ; join 2 0 -> 0 ; join 10 0 -> 0 ; sweep 16 5 -> 0
            sweep 10 4294967295 -> 0 ; sweep 2 9 -> 0 ; sweep 16 4 -> 0 ; sweep 2 9 -> 0
            close 16 -> 0 ; sweep 16 6 -> 0 ; sweep 2 1 -> 0 ; close 2 -> 0 ; close 10 -> 0
            close 16 -> 0 ; close 2 -> 0 ; handout 6 -> 24 ; close 10 -> 0 ; handout 5 -> 22
            handout 6 -> 0 count=6 tags=9,9,1,4294967295,5,4
            ---
            sender=2 first=0 open=2 end=none
            sender=10 first=0 open=2 end=none
            sender=16 first=0 open=2 end=none
            next=1 held=1
        """)

    def test_end_drops_its_own_later_sweeps_only_and_keeps_the_earlier(self):
        self.ledger_case("""
            join 1 0 -> 0 ; join 2 0 -> 0 ; sweep 1 10 -> 0 ; close 1 -> 0 ; sweep 1 11 -> 0
            close 1 -> 0 ; sweep 1 12 -> 0 ; sweep 2 20 -> 0 ; close 2 -> 0 ; sweep 2 21 -> 0
            end 1 1 -> 0 ; handout 9 -> 24 ; close 2 -> 0 ; handout 9 -> 0 count=2 tags=10,20
            handout 9 -> 24 ; close 2 -> 0 ; handout 9 -> 0 count=1 tags=21
            ---
            sender=1 first=0 open=2 end=1
            sender=2 first=0 open=3 end=none
            next=2 held=0
        """)

    def test_end_below_its_first_slot(self):
        self.ledger_case("""
            join 1 5 -> 0 ; sweep 1 1 -> 0 ; end 1 0 -> 0 ; join 1 5 -> 13 ; handout 0 -> 0 count=0
            ---
            sender=1 first=5 open=5 end=0
            next=1 held=0
        """)

    def test_end_of_a_sender_that_holds_up_the_next_slot(self):
        self.ledger_case("""
            join 1 0 -> 0 ; join 2 0 -> 0 ; sweep 1 1 -> 0 ; sweep 2 2 -> 0 ; close 2 -> 0
            close 2 -> 0 ; handout 2 -> 24 ; end 1 0 -> 0 ; handout 2 -> 0 count=1 tags=2
            ---
            sender=1 first=0 open=0 end=0
            sender=2 first=0 open=2 end=none
            next=1 held=0
        """)

    def test_a_sender_that_ended_at_the_slot_after_it_does_not_hold_a_slot_up(self):
        self.ledger_case("""
            join 1 0 -> 0 ; join 2 0 -> 0 ; sweep 1 10 -> 0 ; close 1 -> 0 ; sweep 1 11 -> 0
            sweep 2 20 -> 0 ; close 2 -> 0 ; close 2 -> 0 ; handout 9 -> 24 ; end 1 1 -> 0
            handout 9 -> 0 count=2 tags=10,20
            ---
            sender=1 first=0 open=1 end=1
            sender=2 first=0 open=2 end=none
            next=1 held=0
        """)

    def test_an_end_lets_two_slots_go_out(self):
        self.ledger_case("""
            join 1 0 -> 0 ; join 2 0 -> 0 ; sweep 1 10 -> 0 ; sweep 2 20 -> 0 ; close 2 -> 0
            sweep 2 21 -> 0 ; close 2 -> 0 ; sweep 2 22 -> 0 ; close 2 -> 0 ; handout 9 -> 24
            end 1 0 -> 0 ; handout 9 -> 0 count=1 tags=20 ; handout 9 -> 0 count=1 tags=21
            handout 9 -> 24
            ---
            sender=1 first=0 open=0 end=0
            sender=2 first=0 open=3 end=none
            next=2 held=1
        """)

    def test_24_comes_before_22(self):
        self.ledger_case("""
            join 1 0 -> 0 ; sweep 1 1 -> 0 ; handout 0 -> 24 ; close 1 -> 0 ; handout 0 -> 24
            close 1 -> 0 ; handout 0 -> 22 ; handout 1 -> 0 count=1 tags=1
            ---
            sender=1 first=0 open=2 end=none
            next=1 held=0
        """)

    def test_order_of_checks(self):
        self.ledger_case("""
            join 17 65535 -> 1 ; join 0 0 -> 1 ; sweep 17 0 -> 1 ; close 0 -> 1
            end 99999 99999 -> 1 ; sweep 1 0 -> 15 ; close 1 -> 15 ; end 1 99999 -> 15
            join 1 65535 -> 14 ; join 1 99999 -> 14 ; join 1 65534 -> 0 ; join 1 65535 -> 13
            join 2 0 -> 0 ; close 2 -> 0 ; close 2 -> 0 ; handout 0 -> 0 count=0 ; join 3 0 -> 14
            join 2 0 -> 13 ; end 2 3 -> 18 ; end 2 0 -> 19 ; end 2 2 -> 0 ; end 2 99999 -> 16
            end 2 0 -> 16 ; sweep 2 0 -> 15 ; close 2 -> 15 ; join 3 1 -> 0
            ---
            sender=1 first=65534 open=65534 end=none
            sender=2 first=0 open=2 end=2
            sender=3 first=1 open=1 end=none
            next=1 held=0
        """)

    def test_the_last_slot(self):
        self.ledger_case("""
            join 1 65534 -> 0 ; sweep 1 1 -> 0 ; close 1 -> 0 ; sweep 1 1 -> 17 ; close 1 -> 17
            end 1 65536 -> 18 ; end 1 65535 -> 0 ; sweep 1 1 -> 15 ; close 1 -> 15
            ---
            sender=1 first=65534 open=65535 end=65535
            next=0 held=1
        """)

    def test_a_full_store(self):
        rows = ["step=join sender=1 slot=0", "step=join sender=2 slot=0", "step=join sender=3 slot=65534",
                "step=close sender=3"]
        answers = ["0"] * 4
        rows += ["step=sweep sender=1 tag=1"] * 1000 + ["step=sweep sender=2 tag=2"] * 24
        answers += ["0"] * 1024
        for row, answer in (("sweep sender=1 tag=3", "25"), ("sweep sender=2 tag=3", "25"),
                            ("sweep sender=3 tag=3", "17"), ("sweep sender=4 tag=3", "15"),
                            ("sweep sender=17 tag=3", "1"), ("close sender=1", "0"),
                            ("sweep sender=1 tag=4", "25"), ("end sender=2 slot=0", "0"),
                            ("sweep sender=1 tag=5", "0"), ("handout room=999", "24"),
                            ("close sender=1", "0"), ("handout room=999", "22"),
                            ("handout room=1000", "0 count=1000 tags=" + ",".join(["1"] * 1000)),
                            ("close sender=1", "0"), ("handout room=99999", "0 count=1 tags=5")):
            rows.append("step=" + row)
            answers.append(answer)
        rows += ["step=sweep sender=1 tag=6"] * 1025 + ["step=close sender=1", "step=handout room=99999",
                                                        "step=close sender=1", "step=handout room=1023",
                                                        "step=handout room=99999"]
        answers += ["0"] * 1024 + ["25", "0", "0 count=0", "0", "22",
                                   "0 count=1024 tags=" + ",".join(["6"] * 1024)]
        expected = report(answers, ["sender=1 first=0 open=5 end=none", "sender=2 first=0 open=0 end=0",
                                    "sender=3 first=65534 open=65535 end=none", "next=4 held=0"])
        self.assertEqual(play("ledger", "\n".join(rows).encode()), expected)

    def test_malformed_lines(self):
        for line in generate.LEDGER_MALFORMED + ["step=handout room=1 tag=1", "step=end sender=1 slot=1,"]:
            data = ("step=join sender=1 slot=0\n" + line + "\nstep=close sender=1").encode("latin-1")
            self.assertEqual(play("ledger", data), report(["0", "20", "0"], [
                "sender=1 first=0 open=1 end=none", "next=0 held=0"]), line)


class Generated(Case):
    """The generator's texts: bounds, sameness, and the refusals they meet."""

    def answers(self, kind, seeds):
        met, rounds = set(), set()
        for seed in seeds:
            out = play(kind, generate.text(kind, seed, 70000)).decode()
            met |= {int(n) for n in re.findall(r" answer=(\d+)", out)}
            rounds |= {int(n) for n in re.findall(r" round=(\d+)", out)}
            met |= {23} if out == "refused=23\n" else set()
        return met, rounds

    def test_every_refusal_of_a_run_text_is_met(self):
        met, rounds = self.answers("run", range(300))
        self.assertEqual(met, {*range(12), 20, 23})
        self.assertGreaterEqual(max(rounds), 12)

    def test_every_refusal_of_a_ledger_script_is_met(self):
        met, _ = self.answers("ledger", range(300))
        self.assertEqual(met, {0, 1, *range(13, 21), 22, 23, 24, 25})

    def test_bounds_and_sameness(self):
        for kind, families in generate.FAMILIES.items():
            for family in families:
                for seed in range(20):
                    for lines in (0, 1, 2, 37, 70000):
                        data = generate.text(kind, seed, lines, family)
                        count = data.count(b"\n") + (data[-1:] not in (b"", b"\n"))
                        self.assertLessEqual(count, lines, (kind, family, seed))
                        if family != "limits":
                            self.assertLessEqual(len(data), 65536, (kind, family, seed))
                    self.assertEqual(data, generate.text(kind, seed, 70000, family))

    def test_the_sizes_named_are_met(self):
        for kind in ("run", "ledger"):
            texts = [generate.text(kind, seed, 70000, "limits") for seed in range(150)]
            self.assertLessEqual({65535, 65536, 65537}, {len(t) for t in texts})
            for size in (65536, 65537):
                self.assertIn(b"\n" * size, texts)

    def test_command_line(self):
        script = os.path.join(HERE, "generate.py")
        out = subprocess.run([sys.executable, script, "run", "7", "99", "--family", "deep"],
                             stdout=subprocess.PIPE, check=True).stdout
        self.assertEqual(out, generate.text("run", 7, 99, "deep"))
        out = subprocess.run([sys.executable, script, "families"], stdout=subprocess.PIPE, check=True).stdout
        self.assertEqual(out.count(b"\n"), sum(map(len, generate.FAMILIES.values())))


if __name__ == "__main__":
    if sys.argv[1:2] not in (["second"], ["proved"]):
        sys.exit(__doc__)
    WHICH = sys.argv.pop(1)
    unittest.main()
