"""What a script says by name becomes numbered steps; a name that fits nothing is refused at its line."""

import json
import unittest
from unittest import mock

from played import examples, by_model, file_text
import names
import scripts

SLOW = """sites 2 tolerated 0
container 1 regular at 0
client ann at 0
client bob at 1
bob: start
bob: write 1:5 "s"
bob: commit
"""
COMMITTED = """sites 2 tolerated 0
container 1 regular at 0
client ann at 0
ann: start
ann: write 1:1 "a"
ann: commit
ann: start
ann: write 1:1 "b"
ann: commit
"""
LOST = """sites 3 tolerated 1
container 3 set at 2
client ann at 0
client bob at 1
ann: start
ann: setadd 3:1 9
ann: commit
"""


def steps_of(script):
    return scripts.read(script)["steps"]


def deliveries(script):
    return [step[1:] for step in steps_of(script) if step[0] == "deliver"]


class Names(unittest.TestCase):
    def is_refused(self, script, *faults):
        with self.subTest(script), self.assertRaises(scripts.Wrong) as wrong:
            scripts.read(script)
        self.assertEqual(str(wrong.exception).split("\n"), list(faults))

    def test_a_name_is_the_first_that_was_not_delivered(self):
        named = "deliver to 0 from 1 PREPARE\ndeliver to 1 from 0 VOTE\ndeliver to 0 from 1 PROPAGATE 1\n"
        self.assertEqual(deliveries(SLOW + named), [[0, 1, 1], [1, 0, 1], [0, 1, 2]])

    def test_packets_that_are_said_again_have_names_too(self):
        named = "tick 1\ndeliver to 0 from 1 PREPARE\ndeliver to 0 from 1 PREPARE 1\ndeliver to 0 from 1 PREPARE again\n" \
            "deliver to 0 from 1 PREPARE 1 again\n"
        self.assertEqual(deliveries(SLOW + named), [[0, 1, 1], [0, 1, 2], [0, 1, 2], [0, 1, 2]])

    def test_a_packet_by_its_number(self):
        self.assertEqual(deliveries(COMMITTED + "deliver to 1 from 0 PROPAGATE 2\ndeliver to 1 from 0 DSMARK\n"),
                         [[1, 0, 3], [1, 0, 2]])

    def test_a_name_that_fits_nothing_is_refused(self):
        there = "there are packet 1 PROPAGATE 1, packet 2 DSMARK 1, packet 3 PROPAGATE 2, packet 4 DSMARK 2"
        self.is_refused(COMMITTED + "deliver to 1 from 0 PREPARE\ndeliver to 1 from 0 PROPAGATE 3\n",
                        f'line 10: "PREPARE": wants a packet from 0 to 1 that waits: {there}',
                        f'line 11: "PROPAGATE 3": wants a packet from 0 to 1 that waits: {there}')
        self.is_refused(COMMITTED + "deliver to 0 from 1 ACK\ndeliver to 1 from 0 ACK again\nlose to 1 from 0 packet 5\n",
                        'line 10: "ACK": wants a packet from 1 to 0 that waits: there is none',
                        'line 11: "ACK": wants a packet from 0 to 1 that was delivered: there is none',
                        f'line 12: "packet 5": wants a packet from 0 to 1 that waits: {there}')

    def test_what_is_lost_is_not_delivered(self):
        self.assertEqual(deliveries(SLOW + "lose to 0 from 1 PREPARE\ntick 1\ndeliver to 0 from 1 PREPARE\n"), [[0, 1, 2]])
        self.is_refused(SLOW + "lose to 0 from 1 PREPARE\ndeliver to 0 from 1 packet 1\n",
                        'line 9: "packet 1": wants a packet that line 8 doesn\'t lose')
        left = deliveries(COMMITTED + "lose to 1 from 0 PROPAGATE 1\nlose to 1 from 0 packet 2\nsettle 1\n")
        self.assertEqual(left, [[1, 0, 3], [1, 0, 4]])

    def test_settle_brings_all_to_every_site(self):
        """What was lost is said again by ticks; at the end everything is visible, and no more ticks are made than help."""
        for lost in ("", "lose to 1 from 0 PROPAGATE\n", "lose to 1 from 0 PROPAGATE\nlose to 2 from 0 PROPAGATE\n"):
            made = scripts.read(LOST + lost + "settle\nann: level last\n")
            run = by_model(json.dumps(made))
            self.assertEqual([site.committed for site in run.sites], [[1, 0, 0]] * 3)
            self.assertEqual(run.replies[0][-1].hex(), "000000028805")
            self.assertEqual(sum(step[0] == "tick" for step in made["steps"]), lost.count("lose") > 0)
        self.assertEqual(steps_of(LOST + "settle\nsettle\n"), steps_of(LOST + "settle\n"))

    def test_settle_ends_where_a_site_is_down_or_full(self):
        made = scripts.read(LOST + "stop 2\nsettle\nrestart 2\nsettle\n")
        self.assertEqual([site.committed for site in by_model(json.dumps(made)).sites], [[1, 0, 0]] * 3)
        full = scripts.read(LOST.replace("container", "capacity 180\ncontainer") + "settle\n")
        self.assertIn("full", by_model(json.dumps(full)).text())
        failing = scripts.read(LOST + "arm 1 call 1 choice 0\nsettle\n")
        self.assertFalse(by_model(json.dumps(failing)).sites[1].up)

    def test_settle_of_a_site_is_of_that_site_alone(self):
        steps = steps_of(COMMITTED + "settle 1\n")[6:]
        self.assertEqual(steps, [["deliver", 1, 0, number] for number in (1, 2, 3, 4)] + [["advance", 1, 0]] * 2)

    def test_settle_has_a_bound_that_is_told(self):
        with mock.patch.object(names, "MOST_SETTLING", 3):
            self.is_refused(COMMITTED + "settle\n", 'line 10: "settle": wants what comes to its end within 3 steps')

    def test_pumps_of_all_sites(self):
        self.assertEqual(steps_of(COMMITTED + "pump all\n")[6:], [["pump", site] for site in range(2)])
        made = scripts.read(COMMITTED + "pump until idle\n")
        steps = made["steps"][6:]
        self.assertEqual({step[0] for step in steps}, {"pump"})
        played = by_model(json.dumps(made))
        self.assertEqual([site.committed for site in played.sites], [[2, 0]] * 2)
        self.assertEqual({entry.event for site in played.sites for entry in site.entries} & {"tick"}, set())
        # Nothing is left to do then but to tick.
        self.assertEqual(steps_of(COMMITTED + "pump until idle\npump until idle\n")[6:], steps)
        self.assertEqual(steps_of(COMMITTED + "stop 1\npump until idle\n")[7:8], [["pump", 1]])
        lossy = COMMITTED.replace("client", "link seed 7 lose 600 repeat 100 swap 100\nclient", 1) + "pump all\npump until idle\n"
        events = [entry.event for site in by_model(json.dumps(scripts.read(lossy))).sites for entry in site.entries]
        self.assertLessEqual(events.count("tick"), 2)
        self.assertTrue(all(site.up for site in by_model(json.dumps(scripts.read(COMMITTED + "stop 1\npump until idle\n"))).sites))
        with mock.patch.object(names, "MOST_SETTLING", 3):
            self.is_refused(COMMITTED + "pump until idle\n", 'line 10: "idle": wants what comes to its end within 3 steps')

    def test_advance_to_a_site(self):
        named = "deliver to 1 from 0 PROPAGATE\ndeliver to 1 from 0 PROPAGATE\ndeliver to 1 from 0 DSMARK 2\nadvance to 1\n"
        self.assertEqual(steps_of(COMMITTED + named)[-2:], [["advance", 1, 0]] * 2)
        self.is_refused(COMMITTED + "advance to 1\ndeliver to 1 from 0 PROPAGATE\nadvance to 1\nstop 1\nadvance to 1\n",
                        'line 10: "to 1": wants something to commit at site 1: 0@1 isn\'t received there',
                        'line 12: "to 1": wants something to commit at site 1: 0@1 isn\'t durable by the word of site 0',
                        'line 14: "to 1": wants something to commit at site 1: site 1 is down')

    def test_the_level_of_the_last(self):
        made = scripts.read(COMMITTED + "ann: level last\n")
        self.assertEqual(made, scripts.read(COMMITTED + "ann: level 0.1.2\n"))
        self.is_refused(SLOW + "ann: level last\n",
                        'line 8: "last": wants a transaction that the client has started: there is none')

    def test_back_is_by_numbers(self):
        text = scripts.write(scripts.read(LOST + "lose to 1 from 0 PROPAGATE\nsettle\nann: level last\n"))
        self.assertFalse(any(word in text for word in ("PROPAGATE", "settle", "last", "lose")))

    def test_friends_everywhere(self):
        path = [path for path in examples("script") if "friends_everywhere" in path][0]
        self.assertLessEqual(len(file_text(path).splitlines()), 20)
        run = by_model(scripts.text_of(scripts.read(file_text(path))))
        self.assertEqual([site.committed for site in run.sites], [[1, 1, 1]] * 3)
        self.assertEqual([site.marks() for site in run.sites], [(1, 1)] * 3)


if __name__ == "__main__":
    unittest.main()
