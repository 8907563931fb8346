import unittest

from greeting import greeting


class GreetingTest(unittest.TestCase):
    def test_name(self):
        self.assertEqual(greeting("Ada"), "Hello, Ada!")
