"""The calls: kinds of rings in and out, what is no ring, and refusals in words."""

import pickle
import unittest
from array import array
from collections import OrderedDict, deque
from ctypes import addressof, c_uint32

import dowelbrook
from dowelbrook import Logger, Refusal, Singular
from dowelbrook.rings import lend

try:
    import numpy
except ImportError:
    numpy = None


def refusal_of(call, *arguments, **more):
    try:
        answer = call(*arguments, **more)
    except Refusal as refusal:
        return refusal
    raise AssertionError(f"not refused, but {answer}")


class Kinds(unittest.TestCase):
    """Results come back as the kind that was given."""

    def check(self, ring, kind):
        counts = dowelbrook.unmix([1, 2, 0], ring, 10)
        self.assertIs(type(counts), kind)
        self.assertEqual([int(count) for count in counts], [1, 0, 5])
        return counts

    def test_lists_and_tuples(self):
        self.check([1, 2, 5], list)
        self.check((1, 2, 5), tuple)

    def test_other_sequences_give_lists(self):
        self.check(deque([1, 2, 5]), list)
        self.assertEqual(dowelbrook.mix([1, 2, 0], range(3), 10), [4, 1, 4])

    def test_arrays_of_every_whole_type(self):
        for code in "bBhHiIlLqQ":
            self.assertEqual(self.check(array(code, [1, 2, 5]), array).typecode, code)

    def test_views(self):
        counts = self.check(memoryview(array("I", [1, 2, 5])), memoryview)
        self.assertEqual(counts.format, "I")
        self.check(memoryview(bytes([1, 2, 5])), memoryview)
        self.check(memoryview(array("I", [1, 9, 2, 9, 5, 9]))[::2], memoryview)
        self.check(memoryview(array("I", [1, 2, 5])).toreadonly(), memoryview)
        self.check(memoryview((c_uint32 * 3)(1, 2, 5)), memoryview)
        self.check(memoryview((c_uint32 * 6)(1, 9, 2, 9, 5, 9))[::2], memoryview)
        self.assertEqual(dowelbrook.unmix([1, 2, 0], memoryview(bytes([1, 2, 5])), 10).format, "B")
        words = "refused 6: reading 1 is 12, not below the modulus 10"
        view = memoryview((c_uint32 * 3)(1, 12, 5))
        self.assertEqual(str(refusal_of(dowelbrook.unmix, [1, 2, 0], view, 10)), words)
        self.assertEqual(Logger(memoryview((c_uint32 * 3)(1, 2, 0)), 10).pattern, [1, 2, 0])

    def test_views_that_are_not_aligned(self):
        unaligned = memoryview(bytearray(13))[1:13].cast("I")
        unaligned[:] = array("I", [1, 2, 5])
        self.check(unaligned, memoryview)
        self.assertEqual(addressof(lend(unaligned, "it").pointer) % 4, 0)
        if numpy:
            self.check(numpy.frombuffer(unaligned.obj, dtype="uint32", count=3, offset=1), numpy.ndarray)

    def test_rings_without_entries_have_an_address(self):
        for ring in [], (), array("I"), array("b"), memoryview(b""):
            self.assertNotEqual(addressof(lend(ring, "it").pointer), 0)
            self.assertEqual(refusal_of(dowelbrook.invert, ring, 10, []).number, 1)

    @unittest.skipUnless(numpy, "NumPy is not installed")
    def test_numpy_arrays_of_every_whole_type(self):
        for dtype in "int8 uint8 int16 uint16 int32 uint32 int64 uint64 >u4".split():
            counts = self.check(numpy.array([1, 2, 5], dtype=dtype), numpy.ndarray)
            self.assertEqual(counts.dtype, numpy.dtype(dtype))
        self.check(numpy.array([1, 9, 2, 9, 5, 9], dtype="uint32")[::2], numpy.ndarray)
        fixed = numpy.array([1, 2, 5], dtype="uint32")
        fixed.setflags(write=False)
        self.check(fixed, numpy.ndarray)

    @unittest.skipUnless(numpy, "NumPy is not installed")
    def test_a_numpy_result_can_be_written(self):
        counts = dowelbrook.unmix([1, 2, 0], numpy.array([1, 2, 5], dtype="uint32"), 10)
        counts[0] = 7
        self.assertEqual(list(counts), [7, 0, 5])

    def test_a_result_that_may_not_fit_comes_in_words(self):
        for code in "bBhH":
            counts = dowelbrook.invert(array(code, [3]), 1_000_000)
            self.assertEqual((counts.typecode, list(counts)), ("I", [666_667]))
        self.assertEqual(dowelbrook.invert(array("b", [3]), 128).typecode, "b")
        self.assertEqual(dowelbrook.invert(array("b", [2]), 129).typecode, "I")
        self.assertEqual(dowelbrook.reduce(array("b", [3]), 256, 2).typecode, "I")
        self.assertEqual(dowelbrook.invert(array("B", [3]), 256).typecode, "B")
        self.assertEqual(dowelbrook.invert(memoryview(bytes([3])), 1_000_000)[0], 666_667)

    @unittest.skipUnless(numpy, "NumPy is not installed")
    def test_a_numpy_result_that_may_not_fit_comes_in_words(self):
        for dtype in "int8 uint8 int16 uint16".split():
            counts = dowelbrook.invert(numpy.array([3], dtype=dtype), 1_000_000)
            self.assertEqual((counts.dtype, counts[0]), (numpy.dtype("uint32"), 666_667))
        self.assertEqual(dowelbrook.invert(numpy.array([3], dtype="int8"), 128).dtype, numpy.dtype("int8"))
        self.assertEqual(dowelbrook.invert(numpy.array([2], dtype="int8"), 129).dtype, numpy.dtype("uint32"))

    def test_words_are_lent_as_they_are(self):
        ring = array("I", [1, 2, 5])
        self.assertEqual(addressof(lend(ring, "it").pointer), ring.buffer_info()[0])
        self.assertEqual(addressof(lend(memoryview(ring), "it").pointer), ring.buffer_info()[0])

    @unittest.skipUnless(numpy, "NumPy is not installed")
    def test_numpy_s_words_are_lent_as_they_are(self):
        ring = numpy.array([1, 2, 5], dtype="uint32")
        self.assertEqual(addressof(lend(ring, "it").pointer), ring.ctypes.data)

    def test_the_last_ring_decides(self):
        self.assertEqual(dowelbrook.mix([1, 2, 0], (1, 0, 5), 10), (1, 2, 5))
        self.assertEqual(dowelbrook.invert((1, 2, 0), 10), (9, 2, 6))
        self.assertEqual(dowelbrook.fold((1, 2, 3, 4), 10, 2), (4, 6))
        self.assertEqual(dowelbrook.reduce((5, 6), 8, 4), (1, 2))

    def test_nothing_is_written_into_what_was_given(self):
        pattern, readings = array("I", [1, 2, 0]), array("I", [1, 2, 5])
        dowelbrook.unmix(pattern, readings, 10)
        self.assertEqual((list(pattern), list(readings)), ([1, 2, 0], [1, 2, 5]))


class NoRings(unittest.TestCase):
    """What is no ring, no modulus or no factor list is told in words."""

    def refused(self, error, words, call, *arguments, **more):
        with self.assertRaises(error) as caught:
            call(*arguments, **more)
        self.assertIn(words, str(caught.exception))

    def test_no_sequences(self):
        for ring in {1, 2}, frozenset([1]), {0: 1}, iter([1, 2]), 5, None, "12", b"12", bytearray(b"1"), OrderedDict():
            words = f"ring b: a sequence of whole numbers is wanted, such as a list, not of type {type(ring).__name__}"
            self.refused(TypeError, words, dowelbrook.mix, [1, 2], ring, 10)

    def test_entries_that_are_no_whole_numbers(self):
        for entry in 1.0, "1", None, True, [1], 1j:
            words = f"entry 1 of the pattern: a whole number is wanted, not {entry!r}"
            self.refused(TypeError, words, dowelbrook.invert, [1, entry], 10)

    def test_entries_that_are_no_words(self):
        words = "entry 0 of the pattern: a number of 16610 bits is not from 0 to 4294967295"
        self.refused(ValueError, words, dowelbrook.invert, [10**5000], 10)
        for entry in -1, 2**32, 10**30:
            words = f"entry 0 of the pattern: {entry} is not from 0 to 4294967295"
            self.refused(ValueError, words, dowelbrook.invert, [entry, 1], 10)
            self.refused(ValueError, words, Logger, (entry, 1), 10)
        for code in "bhilq":
            for ring in array(code, [1, -3]), memoryview(array(code, [1, -3])):
                self.refused(ValueError, "entry 1 of ring a: -3 is not from", dowelbrook.mix, ring, [1, 2], 10)
        words = "entry 0 of the second pattern: -1 is not from"
        self.refused(ValueError, words, dowelbrook.same_feeding, [1], [1], [-1], [1], 10)

    def test_buffers_of_another_kind(self):
        for ring in array("d", [1.0]), array("f", [1.0]), memoryview(array("d", [1.0])):
            self.refused(
                TypeError, "the pattern: a sequence of whole numbers is wanted, not a", dowelbrook.invert, ring, 10
            )
        square = memoryview(array("I", [1, 2, 3, 4])).cast("B").cast("I", shape=[2, 2])
        self.refused(ValueError, "the pattern: one dimension is wanted, not 2", dowelbrook.invert, square, 10)

    @unittest.skipUnless(numpy, "NumPy is not installed")
    def test_numpy_s_truth_values_and_masks(self):
        words = "entry 0 of the pattern: a whole number is wanted, not "
        self.refused(TypeError, words, dowelbrook.invert, [numpy.bool_(True), 2], 10)
        self.refused(TypeError, "the modulus: a whole number is wanted, not ", dowelbrook.factor, numpy.bool_(True))
        self.refused(TypeError, "the modulus: a whole number is wanted, not ", dowelbrook.factor, numpy.array([10, 2]))
        masked = numpy.ma.array([1, 2, 5], mask=[0, 1, 0])
        self.refused(TypeError, "not a masked array", dowelbrook.unmix, [1, 2, 0], masked, 10)

    @unittest.skipUnless(numpy, "NumPy is not installed")
    def test_numpy_arrays_of_another_kind(self):
        for dtype in "float64 bool complex128 object".split():
            ring = numpy.array([1, 1], dtype=dtype)
            words = f"the pattern: a sequence of whole numbers is wanted, not a NumPy array of {dtype}"
            self.refused(TypeError, words, dowelbrook.invert, ring, 10)
        self.refused(
            ValueError, "one dimension is wanted, not 2", dowelbrook.invert, numpy.ones((2, 2), dtype="uint32"), 10
        )
        for dtype in "int8", "int32", "int64":
            ring = numpy.array([1, -1], dtype=dtype)
            self.refused(ValueError, "entry 1 of the pattern: -1 is not from", dowelbrook.invert, ring, 10)
        self.refused(ValueError, "entry 0 of the pattern: 4294967296 is", dowelbrook.invert, numpy.array([2**32]), 10)

    def test_moduli_and_sizes(self):
        for m in 10.0, "10", None, True, [10]:
            self.refused(TypeError, f"the modulus: a whole number is wanted, not {m!r}", dowelbrook.factor, m)
            self.refused(TypeError, f"the modulus: a whole number is wanted, not {m!r}", dowelbrook.mix, [1], [1], m)
        self.refused(ValueError, "the modulus: -10 is not from", dowelbrook.factor, -10)
        self.refused(ValueError, "the size to fold onto: -1 is not from", dowelbrook.fold, [1, 2], 10, -1)
        self.refused(
            TypeError, "the size to fold onto: a whole number is wanted, not 1.5", dowelbrook.fold, [1, 2], 10, 1.5
        )
        self.refused(TypeError, "the divisor: a whole number is wanted, not 2.0", dowelbrook.reduce, [1, 2], 10, 2.0)

    def test_factor_lists(self):
        unmix = dowelbrook.unmix
        for factors in {2: 1, 5: 1}, "2^1", 7, {(2, 1)}:
            words = "factors: a list of pairs of a prime and its exponent is wanted, not "
            self.refused(TypeError, words, unmix, [1, 2, 0], [1, 2, 5], 10, factors=factors)
        for pair in 2, (2,), (2, 1, 1), "21", {2, 1}:
            words = "factor 0: a pair of a prime and its exponent is wanted, not "
            self.refused(TypeError, words, unmix, [1, 2, 0], [1, 2, 5], 10, factors=[pair])
        words = "the prime of factor 0: a whole number is wanted, not 2.0"
        self.refused(TypeError, words, unmix, [1, 2, 0], [1, 2, 5], 10, factors=[(2.0, 1), (5, 1)])
        words = "the exponent of factor 1: 256 is not from 0 to 255"
        self.refused(ValueError, words, unmix, [1, 2, 0], [1, 2, 5], 10, factors=[(2, 1), (5, 256)])

    def test_sheets(self):
        for sheet in "text", [1, 2], None, 5:
            self.refused(TypeError, "the sheet: bytes are wanted, not type ", dowelbrook.read_sheet, sheet)
            self.refused(TypeError, "the sheet: bytes are wanted, not type ", dowelbrook.report, sheet)


class Refusals(unittest.TestCase):
    """Each number's words, and its fields."""

    def check(self, words, told, call, *arguments, **more):
        refusal = refusal_of(call, *arguments, **more)
        self.assertEqual(str(refusal), f"refused {words}")
        self.assertEqual((refusal.ring, refusal.place, refusal.prime), told)
        self.assertEqual(refusal.name, dowelbrook.NUMBERS[refusal.number].name)

    NOTHING = (None, None, None)

    def test_lengths(self):
        mix, unmix = dowelbrook.mix, dowelbrook.unmix
        self.check("1: ring a has no entries", self.NOTHING, mix, [], [1], 10)
        self.check("1: the pattern has no weights", self.NOTHING, unmix, (), (), 10)
        self.check("2: the ring has 1,025 entries, more than 1,024", self.NOTHING, dowelbrook.fold, [0] * 1025, 10, 1)
        self.check("3: ring b has 1 entry, but ring a has 2 entries", (2, None, None), mix, [1, 2], [1], 10)
        words = "3: there are 2 readings, but the pattern has 3 weights"
        self.check(words, (2, None, None), unmix, [1, 2, 0], [1, 2], 10)
        words = "3: there is 1 reading, but the pattern has 3 weights"
        self.check(words, (2, None, None), unmix, [1, 2, 0], [1], 10)
        words = "3: the second logger has 3 readings, but the first pattern has 2 weights"
        self.check(words, (4, None, None), dowelbrook.same_feeding, [1, 2], [3, 2], [3, 2], [1, 2, 3], 8)

    def test_moduli(self):
        for m in 0, 1, 1_000_001, 2**32 - 1:
            words = f"4: the modulus {m} is not from 2 to 1,000,000"
            self.check(words, self.NOTHING, dowelbrook.invert, [1], m)
            self.check(words, self.NOTHING, dowelbrook.factor, m)
        self.assertEqual((dowelbrook.invert([1], 2), dowelbrook.factor(2)), ([1], [(2, 1)]))
        self.assertEqual(dowelbrook.factor(1_000_000), [(2, 6), (5, 6)])

    def test_entries(self):
        words = "6: reading 1 is 12, not below the modulus 10"
        self.check(words, (2, 1, None), dowelbrook.unmix, [1, 2, 0], [1, 12, 5], 10)
        words = "6: weight 2 of the second pattern is 9, not below the modulus 8"
        self.check(words, (3, 2, None), dowelbrook.same_feeding, [1] * 3, [1] * 3, [1, 1, 9], [9, 1, 1], 8)

    def test_divisors(self):
        words = "8: 3 is not a divisor of the modulus 8 from 2 up"
        self.check(words, self.NOTHING, dowelbrook.reduce, [1], 8, 3)
        for size in 0, 3, 5, 4_000_000_000:
            words = f"8: a ring of 4 cannot be folded onto {size:,}, which is not a divisor of 4"
            self.check(words, self.NOTHING, dowelbrook.fold, [1, 2, 3, 4], 10, size)

    def test_singular(self):
        words = "9: the pattern has no inverse modulo 10: it shares a factor with x^2 - 1 modulo the prime 2"
        self.check(words, (1, None, 2), dowelbrook.invert, [1, 1], 10)
        self.assertEqual(refusal_of(dowelbrook.invert, (1, 1), 10).ghost, (5, 5))
        self.assertEqual(refusal_of(Logger, (1, 1), 10).ghost, (5, 5))
        self.assertIsNone(refusal_of(dowelbrook.unmix, [1, 1], [0, 0], 10).ghost)
        words = "9: the second pattern has no inverse modulo 10: it shares a factor with x^2 - 1 modulo the prime 5"
        self.check(words, (3, None, 5), dowelbrook.same_feeding, [1, 0], [1, 1], [3, 2], [0, 0], 10)

    def test_a_refusal_that_is_kept_locks_no_buffer(self):
        ring = array("I", [1, 12, 5])
        for call in dowelbrook.unmix, dowelbrook.mix:
            kept = refusal_of(call, ring, ring, 10)
            ring.append(0)
            ring.pop()
        kept = refusal_of(Logger([1, 2, 0], 10).unmix, ring)
        ring.append(0)
        self.assertEqual(kept.number, 6)

    def test_nor_does_another_error(self):
        ring, kept = array("I", [1, 2, 5]), []
        for call, *arguments in [
            (dowelbrook.mix, ring, ring, "10"),
            (dowelbrook.unmix, ring, ring, 10, [(2, 1), (5, 300)]),
            (dowelbrook.unmix, ring, None, 10),
            (dowelbrook.same_feeding, ring, ring, ring, {}, 10),
            (Logger, ring, 10, {}),
            (dowelbrook.fold, ring, 10, -1),
        ]:
            try:
                call(*arguments)
            except (TypeError, ValueError) as error:
                kept.append(error)
            ring.append(0)
            ring.pop()
        self.assertEqual(len(kept), 6)

    def test_a_refusal_can_be_sent_to_another_process(self):
        kept = refusal_of(dowelbrook.unmix, [1, 1], [0, 0], 10)
        sent = pickle.loads(pickle.dumps(kept))
        self.assertIs(type(sent), Singular)
        self.assertEqual((str(sent), sent.prime), (str(kept), 2))


class FactorLists(unittest.TestCase):
    """Which part of a factor list is bad, told alike by every call that takes one."""

    EIGHT = [(prime, 1) for prime in (2, 3, 5, 7, 11, 13, 17, 19)]
    CALLS = {
        "invert": lambda m, factors, entry=1: dowelbrook.invert([entry], m, factors),
        "unmix": lambda m, factors, entry=1: dowelbrook.unmix([entry], [1], m, factors),
        "same_feeding": lambda m, factors, entry=1: dowelbrook.same_feeding([entry], [1], [1], [1], m, factors),
        "Logger": lambda m, factors, entry=1: Logger([entry], m, factors),
    }

    def check(self, words, place, m, factors, entry=1):
        for name, call in self.CALLS.items():
            with self.subTest(call=name, factors=factors):
                refusal = refusal_of(call, m, factors, entry)
                self.assertEqual(str(refusal), f"refused {words}")
                self.assertEqual((refusal.ring, refusal.place, refusal.prime), (None, place, None))
                self.assertEqual(refusal.name, dowelbrook.NUMBERS[refusal.number].name)

    def test_sizes(self):
        self.check("5: the factor list is empty", None, 12, [])
        self.check("5: the factor list has 8 entries, more than 7", None, 510_510, self.EIGHT)
        self.check("5: the factor list has 1,000 entries, more than 7", None, 12, [(2, 2), (3, 1)] * 500)
        self.assertEqual(dowelbrook.invert([1], 510_510, self.EIGHT[:7]), [1])

    def test_exponents(self):
        self.check("10: entry 0 of the factor list 2^0 3^1: the exponent of 2 is 0", 0, 12, [(2, 0), (3, 1)])
        self.check("10: entry 1 of the factor list 2^2 5^0: the exponent of 5 is 0", 1, 12, [(2, 2), (5, 0)])
        seventh = [*self.EIGHT[:6], (17, 0)]
        words = "10: entry 6 of the factor list 2^1 3^1 5^1 7^1 11^1 13^1 17^0: the exponent of 17 is 0"
        self.check(words, 6, 510_510, seventh)

    def test_primes(self):
        self.check("11: entry 0 of the factor list 4^1 3^1: 4 is not a prime", 0, 12, [(4, 1), (3, 1)])
        self.check("11: entry 1 of the factor list 2^1 9^1: 9 is not a prime", 1, 18, [(2, 1), (9, 1)])
        two_primes_multiplied = 65_519 * 65_521
        for number in 0, 1, 6, 999_999, two_primes_multiplied, 2**32 - 1:
            words = f"11: entry 1 of the factor list 2^1 {number}^1: {number} is not a prime"
            self.check(words, 1, 12, [(2, 1), (number, 1)])

    def test_order(self):
        words = "12: entry 1 of the factor list 3^1 2^2: 2 is not above 3, the prime before"
        self.check(words, 1, 12, [(3, 1), (2, 2)])
        words = "12: entry 1 of the factor list 2^1 2^1 3^1: 2 is not above 2, the prime before"
        self.check(words, 1, 12, [(2, 1), (2, 1), (3, 1)])
        words = "12: entry 2 of the factor list 2^1 5^1 3^1: 3 is not above 5, the prime before"
        self.check(words, 2, 30, [(2, 1), (5, 1), (3, 1)])

    def test_products(self):
        words = "13: the factor list 2^2 3^2 multiplies to 36, not to the modulus 12"
        self.check(words, None, 12, [(2, 2), (3, 2)])
        self.check("13: the factor list 2^3 multiplies to 8, not to the modulus 12", None, 12, [(2, 3)])
        words = "13: the factor list 4294967291^1 multiplies to 4294967291, not to the modulus 12"
        self.check(words, None, 12, [(4_294_967_291, 1)])

    def test_products_that_a_word_would_wrap_to_the_modulus(self):
        words = "13: the factor list 2^2 1073741827^1 multiplies to 4294967308, not to the modulus 12"
        self.check(words, None, 12, [(2, 2), (1_073_741_827, 1)])
        listed = [(prime, 1) for prime in (2, 13, 419, 691, 823, 2_977_518_503)]
        words = "13: the factor list 2^1 13^1 419^1 691^1 823^1 2977518503^1 multiplies to 18446744073709551626, "
        self.check(f"{words}not to the modulus 10", None, 10, listed)

    def test_long_products_are_not_written_out(self):
        words = "13: the factor list 2^20 5^19 multiplies to 20000000000000000000, not to the modulus 10"
        self.check(words, None, 10, [(2, 20), (5, 19)])
        words = "13: the factor list 2^20 5^20 multiplies to far more than the modulus 10"
        self.check(words, None, 10, [(2, 20), (5, 20)])
        words = "13: the factor list 2^255 3^1 multiplies to far more than the modulus 12"
        self.check(words, None, 12, [(2, 255), (3, 1)])
        longest = [(prime, 255) for prime, _ in self.EIGHT[:6]] + [(4_294_967_291, 255)]
        self.assertEqual(refusal_of(dowelbrook.invert, [1], 12, longest).number, 13)

    def test_the_first_bad_entry_is_told(self):
        for number, place, factors in [
            (5, None, [(4, 0)] * 8),
            (11, 0, [(4, 1), (5, 0)]),
            (10, 0, [(4, 0), (9, 1)]),
            (10, 1, [(5, 1), (4, 0)]),
            (11, 1, [(5, 1), (4, 1)]),
            (12, 1, [(5, 1), (3, 1), (4, 0)]),
            (12, 1, [(5, 1), (3, 1)]),
            (13, None, [(3, 1), (5, 1)]),
        ]:
            for name, call in self.CALLS.items():
                refusal = refusal_of(call, 12, factors)
                self.assertEqual((refusal.number, refusal.place), (number, place), (name, factors))

    def test_before_and_after_other_refusals(self):
        wrong = {5: [], 10: [(2, 0)], 11: [(9, 1)], 12: [(3, 1), (2, 2)], 13: [(2, 1)]}
        for number, factors in wrong.items():
            for name, call in self.CALLS.items():
                for m, entry, wanted in (1, 1, 4), (1_000_001, 1, 4), (12, 12, number), (12, 0, number):
                    self.assertEqual(refusal_of(call, m, factors, entry).number, wanted, (name, factors, m, entry))
            self.assertEqual(refusal_of(dowelbrook.invert, [], 12, factors).number, 1)
            self.assertEqual(refusal_of(Logger, [0] * 1025, 12, factors).number, 2)
            self.assertEqual(refusal_of(dowelbrook.unmix, [1, 2], [1], 12, factors).number, 3)
            self.assertEqual(refusal_of(dowelbrook.same_feeding, [1], [1], [1], [], 12, factors).number, 3)

    def test_lists_that_are_worked_out_are_not_refused(self):
        for m in (*range(2, 3000), 510_510, 524_288, 531_441, 999_983, 999_999, 1_000_000):
            self.assertEqual(dowelbrook.invert([1], m), [1])
            self.assertEqual(dowelbrook.invert([1], m, dowelbrook.factor(m)), [1])


class Loggers(unittest.TestCase):
    def test_it_unmixes_what_it_hears(self):
        logger = Logger([1, 2, 0], 10)
        for counts in [0, 0, 0], [9, 9, 9], [1, 0, 5]:
            self.assertEqual(logger.unmix(logger.hear(counts)), counts)
        self.assertEqual((len(logger), logger.m, logger.factors), (3, 10, [(2, 1), (5, 1)]))
        self.assertEqual((logger.pattern, logger.inverse), ([1, 2, 0], [9, 2, 6]))

    def test_it_keeps_what_it_was_given(self):
        pattern = [1, 2, 0]
        logger = Logger(pattern, 10)
        pattern[0] = 7
        logger.pattern[0] = 7
        self.assertEqual((logger.pattern, logger.unmix([1, 2, 5])), ([1, 2, 0], [1, 0, 5]))

    def test_an_array_that_is_its_pattern_may_change(self):
        pattern = array("I", [1, 2, 0])
        logger = Logger(pattern, 10)
        pattern[0] = 7
        pattern.append(3)
        self.assertEqual((logger.pattern, logger.hear([1, 0, 5])), ([1, 2, 0], [1, 2, 5]))

    def test_nothing_of_it_can_be_changed(self):
        logger = Logger([1, 2, 0], 10)
        for name in "m", "pattern", "inverse", "factors", "name":
            self.assertRaises(AttributeError, setattr, logger, name, 11)

    def test_it_can_be_sent_to_another_process(self):
        logger = pickle.loads(pickle.dumps(Logger([1, 2, 0], 10, [(2, 1), (5, 1)], "north")))
        self.assertEqual((logger.unmix([1, 2, 5]), logger.name), ([1, 0, 5], "north"))
        self.assertEqual((logger.factors, repr(logger)), ([(2, 1), (5, 1)], "Logger([1, 2, 0], 10)"))

    def test_refusals_of_what_it_hears(self):
        refusal = refusal_of(Logger([1, 2, 0], 10).hear, [1, 12, 0])
        self.assertEqual(str(refusal), "refused 6: count 1 is 12, not below the modulus 10")

    def test_errors_of_rows_name_the_row(self):
        with self.assertRaisesRegex(ValueError, "^entry 1 of row 1: -2 is not from 0 to 4294967295$"):
            list(Logger([1, 2, 0], 10).unmix_rows([[1, 2, 5], [1, -2, 5]]))

    def test_refusals_of_rows_name_the_row(self):
        rows = Logger([1, 2, 0], 10).unmix_rows([(1, 2, 5), (1, 2, 10)])
        self.assertEqual(next(rows), (1, 0, 5))
        self.assertEqual(str(refusal_of(next, rows)), "refused 6: reading 2 of row 1 is 10, not below the modulus 10")

    @unittest.skipUnless(numpy, "NumPy is not installed")
    def test_rows_of_a_numpy_array(self):
        rows = numpy.array([[1, 2, 5], [3, 3, 3]])
        counts = numpy.array(list(Logger([1, 2, 0], 10).unmix_rows(rows)))
        self.assertEqual(counts.tolist(), [[1, 0, 5], [1, 1, 1]])


if __name__ == "__main__":
    unittest.main()
