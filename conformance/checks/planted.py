"""The changes of mutants/: each still applies to the sources."""
import collections
import os
import unittest

from ctrconform import changes


@unittest.skipUnless(os.path.isdir(changes.CRATES), "the sources of the harts aren't here")
class Planted(unittest.TestCase):
    def test_each_change_applies(self):
        self.assertEqual([said for said in map(changes.misfit, changes.read()) if said], [])

    def test_they_are_as_many_as_the_page_says(self):
        listed = changes.read()
        self.assertEqual([says for says, count in collections.Counter(one.says for one in listed).items() if count > 1], [])
        self.assertGreaterEqual(len([one for one in listed if not one.permitted]), 100)
        self.assertGreaterEqual(len([one for one in listed if not one.permitted and not one.seen]), 60)
