"""Where the parts of this test are."""
import os

HERE = os.path.dirname(os.path.realpath(__file__))
TESTS = os.path.dirname(HERE)
TOP = os.path.dirname(TESTS)
