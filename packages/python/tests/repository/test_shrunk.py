"""The random buffers of buffers.py and column_buffers.py as Hypothesis draws them: few, and shrunk where one fails.

MUXANDU_INSTALLED takes the package that is installed in the place of the sources, as in that program.
"""

import sys
import unittest
from pathlib import Path

sys.path[:0] = [str(Path(__file__).resolve().parent)]
sys.dont_write_bytecode = True

import buffers  # noqa: E402
import column_buffers  # noqa: E402

try:
    import hypothesis
    from hypothesis import strategies
except ImportError:
    hypothesis = None

KINDS = (
    buffers.SECONDS,
    buffers.DAYS,
    buffers.DATES,
    buffers.DATE_TIMES,
    buffers.STAMPS,
    buffers.SPANS,
    buffers.STATUSES,
    buffers.MOMENTS,
)
VARIETY = 5
EXAMPLES = 30


@unittest.skipIf(hypothesis is None, "Hypothesis is not there")
class Buffers(unittest.TestCase):
    def try_all(self, compare, draw=None):
        """Makes a comparison of buffers that Hypothesis draws, of kinds that `draw` draws."""

        def law(source):
            kinds, told = (draw or some_kinds)(source), []
            buffers.count, kept = lambda problem, *words: problem and told.append((problem, *words)), buffers.count
            try:
                compare(source, kinds)
            finally:
                buffers.count = kept
            self.assertEqual(told, [])

        checks = [
            hypothesis.HealthCheck.too_slow,
            hypothesis.HealthCheck.data_too_large,
            hypothesis.HealthCheck.large_base_example,
        ]
        settings = hypothesis.settings(
            max_examples=EXAMPLES, deadline=None, database=None, derandomize=True, suppress_health_check=checks
        )
        sources = strategies.randoms(use_true_random=False)
        settings(hypothesis.given(sources)(law))()

    def test_conversions(self):
        self.try_all(buffers.compare_conversion)

    def test_each(self):
        self.try_all(lambda source, kinds: buffers.compare_conversion(source, kinds, True))

    def test_texts(self):
        self.try_all(column_buffers.compare_texts, lambda source: column_buffers.some_kinds(source, VARIETY))

    def test_columns(self):
        for compare in set(column_buffers.COMPARISONS):
            self.try_all(compare, lambda source: column_buffers.some_kinds(source, VARIETY))

    def test_written(self):
        self.try_all(buffers.compare_written)

    @unittest.skipIf(buffers.numpy is None, "NumPy is not there")
    def test_moments(self):
        self.try_all(buffers.compare_moments)
        self.try_all(buffers.compare_out_of_moments)


def some_kinds(source):
    """Kinds of items for each that calls take, and that itself."""
    return {each: [*(buffers.some_kind(source, each) for _ in range(VARIETY)), buffers.exact_kind(each)] for each in KINDS}


if __name__ == "__main__":
    unittest.main()
