"""Time zones: found by their names, read from bytes and rules, and their offsets, wall clocks and transitions, beside `zoneinfo`."""

import contextlib
import copy
import datetime
import io
import itertools
import os
import pickle
import runpy
import struct
import sys
import tempfile
import types
import unittest
import zoneinfo
from pathlib import Path
from unittest import mock

import muxandu
from muxandu import Duration, OffsetDateTime, PlainDateTime, Timestamp, UtcDateTime, UtcOffset, Zone, columns

BERLIN = "CET-1CEST,M3.5.0,M10.5.0/3"
SPRING, AUTUMN = Timestamp(1_711_846_800), Timestamp(1_729_990_800)


def file_of(rule, *transitions):
    """The bytes of a file of a zone: of transitions at seconds, each to an offset and a mark of daylight saving time, and a rule."""
    kinds = [(0, 0), *(kind for _, kind in transitions)]
    counts = 0, 0, 0, len(transitions), len(kinds), 4
    head = b"TZif3" + bytes(15) + struct.pack(">6L", 0, 0, 0, 0, 1, 4) + bytes(6) + b"UTC\0"
    block = b"TZif3" + bytes(15) + struct.pack(">6L", *counts)
    block += b"".join(struct.pack(">q", second) for second, _ in transitions)
    block += bytes(range(1, len(kinds))) + b"".join(struct.pack(">lbB", *kind, 0) for kind in kinds) + b"LMT\0"
    return head + block + f"\n{rule}\n".encode()


class InFolder(unittest.TestCase):
    """Tests with a folder of zones of their own."""

    def setUp(self):
        folder = tempfile.TemporaryDirectory()
        self.addCleanup(folder.cleanup)
        self.folder = Path(folder.name)
        self.addCleanup(Zone.clear_cache)
        self.enter(mock.patch.dict(os.environ, {"TZDIR": folder.name}))
        self.put("Europe/Berlin", file_of(BERLIN))
        self.put("+VERSION", b"2024a\n")

    def enter(self, context):
        """Enters a context up to the end of the test."""
        context.__enter__()
        self.addCleanup(context.__exit__, None, None, None)

    def put(self, name, data):
        path = self.folder / name
        path.parent.mkdir(parents=True, exist_ok=True)
        path.write_bytes(data)
        return path


class Names(InFolder):
    def test_a_zone_by_its_name(self):
        berlin = Zone("Europe/Berlin")
        self.assertEqual((berlin.name, berlin.version), ("Europe/Berlin", "2024a"))
        self.assertEqual(berlin.source, str(self.folder / "Europe/Berlin"))
        self.assertEqual(repr(berlin), "Zone('Europe/Berlin')")
        self.assertIs(Zone(name="Europe/Berlin"), berlin)
        self.assertEqual(berlin.offset_at(AUTUMN), UtcOffset(3_600))
        for name in ("name", "source", "version"):
            self.assertRaises(AttributeError, setattr, berlin, name, None)

    def test_a_text_that_is_no_name_touches_no_file(self):
        with mock.patch("builtins.open", side_effect=AssertionError), mock.patch("os.stat", side_effect=AssertionError):
            for name in (
                "",
                "..",
                "../etc/passwd",
                "Europe/../../x",
                "/etc/localtime",
                "Europe//Berlin",
                "Europe/",
                "/",
                ".hidden",
            ):
                with self.assertRaises(muxandu.ZoneNameError) as caught:
                    Zone(name)
                self.assertEqual(caught.exception.zone, name)
            for name in ("Europe/Berlin\0", "Europe/Berlin\n", "Europe\\Berlin", "C:/x", "Europe/Bérlin", "a b", "\ud800"):
                self.assertRaises(muxandu.ZoneNameError, Zone, name)
        self.assertIsInstance(muxandu.ZoneNameError("", ""), ValueError)
        for other in (None, b"Europe/Berlin", 3):
            self.assertRaisesRegex(TypeError, "the name of a zone must be a str, not", Zone, other)
        self.assertRaises(TypeError, Zone)

    def test_an_unknown_name(self):
        with mock.patch.dict(sys.modules, {"tzdata": None}):
            for name in ("Europe/Berln", "Europe", "Europe/Berlin/East"):
                with self.assertRaises(muxandu.UnknownZoneError) as caught:
                    Zone(name)
                self.assertEqual(caught.exception.zone, name)
                self.assertIn(str(self.folder), str(caught.exception))
        again = pickle.loads(pickle.dumps(caught.exception))
        self.assertEqual((str(again), again.zone), (str(caught.exception), caught.exception.zone))

    def test_a_file_that_is_of_no_zone(self):
        path = self.put("zone.tab", b"# a table of the codes of countries, and of zones")
        with self.assertRaises(muxandu.RefusedSyntax) as caught:
            Zone("zone.tab")
        error = caught.exception
        self.assertEqual((error.value, error.place), (str(path), 0))
        self.assertRegex(error.reason, "does not begin with TZif")
        self.put("long", bytes(2**20 + 1))
        self.assertRaisesRegex(muxandu.ZoneError, "more than 1048576 bytes", Zone, "long")

    def test_the_folders_of_zoneinfo(self):
        with mock.patch.dict(os.environ), mock.patch.object(zoneinfo, "TZPATH", ("/nowhere", str(self.folder))):
            del os.environ["TZDIR"]
            self.assertEqual(Zone("Europe/Berlin").source, str(self.folder / "Europe/Berlin"))
            os.environ["TZDIR"] = ""
            self.assertEqual(Zone("Europe/Berlin").version, "2024a")

    def test_the_version_of_the_data(self):
        (self.folder / "+VERSION").unlink()
        self.assertIsNone(Zone("Europe/Berlin").version)
        self.put("tzdata.zi", b"# version 2025b\n# This zic input file\n")
        Zone.clear_cache()
        self.assertEqual(Zone("Europe/Berlin").version, "2025b")

    def test_a_changed_file_is_read_after_the_cache_is_cleared(self):
        before = Zone("Europe/Berlin")
        self.put("Europe/Berlin", file_of("XXX-5"))
        self.assertIs(Zone("Europe/Berlin"), before)
        Zone.clear_cache()
        self.assertEqual(Zone("Europe/Berlin").offset_at(SPRING), UtcOffset(18_000))
        self.assertNotEqual(Zone("Europe/Berlin"), before)

    def test_the_package_tzdata_where_no_folder_has_the_zone(self):
        with tempfile.TemporaryDirectory() as folder, contextlib.ExitStack() as stack:
            path = Path(folder, "tzdata", "zoneinfo", "Asia", "Tokyo")
            path.parent.mkdir(parents=True)
            path.write_bytes(file_of("JST-9"))
            Path(folder, "tzdata", "__init__.py").write_text('IANA_VERSION = "2023c"\n', encoding="utf-8")
            stack.enter_context(mock.patch.object(sys, "path", [folder, *sys.path]))
            stack.enter_context(mock.patch.dict(sys.modules))
            sys.modules.pop("tzdata", None)
            tokyo = Zone("Asia/Tokyo")
            self.assertEqual((tokyo.source, tokyo.version), ("package tzdata", "2023c"))
            self.assertEqual(tokyo.offset_at(SPRING), UtcOffset(32_400))
            self.assertRaises(muxandu.UnknownZoneError, Zone, "Asia/Tokio")
            self.assertEqual(Zone("Europe/Berlin").source, str(self.folder / "Europe/Berlin"))

    def test_derived_classes(self):
        class Own(Zone):
            pass

        own = Own("Europe/Berlin")
        self.assertEqual((type(own), repr(own)), (Own, "Own('Europe/Berlin')"))
        self.assertIs(type(Own.from_rule("UTC0")), Own)
        self.assertEqual(SPRING.to_zone(own), SPRING)


class Local(InFolder):
    """The zone of the machine."""

    def local(self, text, link=None, data=None):
        """The zone of the machine with a text of TZ, or with none and a file that may be a link."""
        path = self.folder / "localtime"
        if link is not None:
            path.symlink_to(link)
        elif data is not None:
            path.write_bytes(data)
        with mock.patch.dict(os.environ), mock.patch("muxandu._zones._LOCAL", str(path)):
            os.environ.pop("TZ", None)
            if text is not None:
                os.environ["TZ"] = text
            return Zone.local()

    def test_the_variable(self):
        for text in ("Europe/Berlin", ":Europe/Berlin"):
            self.assertIs(self.local(text), Zone("Europe/Berlin"))
        self.assertEqual(self.local(BERLIN), Zone.from_rule(BERLIN))
        self.assertEqual(self.local("UTC0").offset_at(SPRING), UtcOffset(0))
        self.assertEqual(self.local(""), Zone.from_rule("UTC0"))
        for text in ("nowhere", "No/Where"):
            self.assertRaises(muxandu.UnknownZoneError, self.local, text)
        self.assertRaises(muxandu.ZoneNameError, self.local, f":{BERLIN}")
        self.assertRaises(muxandu.RefusedSyntax, self.local, "CET-25,")

    def test_the_file(self):
        found = self.local(None, link=self.folder / "Europe" / "Berlin")
        self.assertEqual((found.name, found.version), ("Europe/Berlin", "2024a"))
        self.assertEqual((found.source, found), (str(self.folder / "localtime"), Zone("Europe/Berlin")))

    def test_a_relative_link(self):
        self.assertEqual(self.local(None, link="./Europe/../Europe/Berlin").name, "Europe/Berlin")

    def test_a_file_that_is_no_link(self):
        found = self.local(None, data=file_of("XXX-5"))
        self.assertEqual((found.name, found.version), (None, None))
        self.assertEqual(found.offset_at(SPRING), UtcOffset(18_000))

    def test_no_file_is_utc(self):
        self.assertEqual(self.local(None), Zone.from_rule("UTC0"))


class Bytes(unittest.TestCase):
    def test_versions_and_buffers(self):
        data = file_of(BERLIN)
        for given in (data, bytearray(data), memoryview(data)):
            zone = Zone.from_bytes(given)
            self.assertEqual((zone.offset_at(SPRING), zone.name), (UtcOffset(7_200), None))
        self.assertRaises(TypeError, Zone.from_bytes, "TZif")
        self.assertEqual(repr(zone), f"<Zone of {len(data)} bytes>")

    def test_each_cut_is_refused_with_the_byte(self):
        data = file_of(BERLIN, (0, (3_600, 0)))
        for size in range(len(data)):
            with self.assertRaises(muxandu.RefusedSyntax) as caught:
                Zone.from_bytes(data[:size])
            self.assertEqual((caught.exception.place, caught.exception.value), (size, data[:size]))

    def test_faults_of_bytes_have_their_place_and_reason(self):
        data = file_of(BERLIN)
        for place, byte, reason in ((0, b"t", "begin with TZif"), (4, b"5", "version"), (54, b"x", "begin with TZif")):
            with self.assertRaisesRegex(muxandu.RefusedSyntax, reason) as caught:
                Zone.from_bytes(data[:place] + byte + data[place + 1 :])
            self.assertEqual(caught.exception.place, place)
        with self.assertRaises(muxandu.RefusedSyntax) as caught:
            Zone.from_bytes(file_of("CET-1CEST"))
        self.assertRegex(caught.exception.reason, "digit")

    def test_transitions_at_fault_have_their_number(self):
        with self.assertRaises(muxandu.RefusedSyntax) as caught:
            Zone.from_bytes(file_of("", (5, (60, 0)), (9_000, (0, 0)), (9_000, (60, 0))))
        error = caught.exception
        self.assertEqual(error.place, None)
        self.assertRegex(error.reason, "^transition 2: A transition that is out of range, or does not follow")
        with self.assertRaises(muxandu.RefusedSyntax) as caught:
            Zone.from_bytes(file_of("AAA0BBB,J10/0,J10/0:30"))
        self.assertEqual(caught.exception.place, None)
        self.assertRegex(caught.exception.reason, "^A rule that overlaps itself")
        with self.assertRaisesRegex(muxandu.RefusedSyntax, "More than 512 transitions"):
            Zone.from_bytes(many_transitions(513))
        self.assertEqual(Zone.from_bytes(many_transitions(512)).offset_at(Timestamp(511 * 10_000)), UtcOffset(60))


def many_transitions(count):
    """A file of so many transitions, between two offsets."""
    head = b"TZif3" + bytes(15) + struct.pack(">6L", 0, 0, 0, 0, 1, 4) + bytes(6) + b"UTC\0"
    block = b"TZif3" + bytes(15) + struct.pack(">6L", 0, 0, 0, count, 2, 4)
    block += b"".join(struct.pack(">q", 10_000 * place) for place in range(count))
    block += bytes((place % 2 for place in range(count))) + bytes(6) + struct.pack(">lbB", 60, 0, 0) + b"LMT\0"
    return head + block + b"\n\n"


class Rules(unittest.TestCase):
    def test_a_rule(self):
        zone = Zone.from_rule(BERLIN)
        self.assertEqual((zone.name, zone.source, zone.version), (None, None, None))
        self.assertEqual(repr(zone), f"Zone.from_rule({BERLIN!r})")
        self.assertEqual(Zone.from_rule("<+1030>-10:30").offset_at(SPRING), UtcOffset(37_800))

    def test_a_text_that_is_no_rule(self):
        for text, place in (
            ("", 0),
            ("CET", 3),
            ("CET-25", 4),
            ("CET-1CEST", 9),
            ("CET-1,", 5),
            ("CET-1\ud800", 5),
            ("UTC0\0", 4),
        ):
            with self.assertRaises(muxandu.RefusedSyntax) as caught:
                Zone.from_rule(text)
            self.assertEqual((caught.exception.place, caught.exception.value), (place, text), text)
        with self.assertRaisesRegex(muxandu.RefusedSyntax, "overlaps itself"):
            Zone.from_rule("AAA0BBB,J10/0,J10/0:30")
        self.assertRaisesRegex(TypeError, "a rule must be a str, not bytes", Zone.from_rule, b"UTC0")


class Instants(unittest.TestCase):
    berlin = Zone.from_rule(BERLIN)

    def test_offsets_change_at_the_transition(self):
        second = Duration(1)
        for at, offset in ((SPRING - second, 3_600), (SPRING, 7_200), (AUTUMN - second, 7_200), (AUTUMN, 3_600)):
            for instant in (at, at.to_utc(), at.to_offset(-7_200), at + Duration(0, 999_999_999)):
                self.assertEqual(self.berlin.offset_at(instant), UtcOffset(offset))
                shown = instant.to_zone(self.berlin)
                self.assertEqual((type(shown), shown, shown.offset_seconds), (OffsetDateTime, instant, offset))
        self.assertEqual(str(SPRING.to_zone(self.berlin)), "2024-03-31 3:00:00.0 +02:00:00")

    def test_a_name_in_place_of_a_zone(self):
        with mock.patch("muxandu._zones._folders", return_value=("/nowhere",)), mock.patch(
            "muxandu._zones._in_package"
        ) as package:
            package.return_value = types.SimpleNamespace(data=file_of("JST-9"), source="a test", version=None)
            self.addCleanup(Zone.clear_cache)
            self.assertEqual(SPRING.to_zone("Asia/Tokyo").hour, 10)
            self.assertEqual(PlainDateTime(2024, 1, 1).at_zone("Asia/Tokyo").offset_seconds, 32_400)
        self.assertRaises(muxandu.ZoneNameError, SPRING.to_zone, "../x")
        self.assertRaises(muxandu.ZoneNameError, PlainDateTime(2024, 1, 1).at_zone, "")

    def test_other_words(self):
        for call in (self.berlin.offset_at, self.berlin.next_transition, self.berlin.previous_transition):
            for other in (0, PlainDateTime(2024, 1, 1), datetime.datetime(2024, 1, 1)):
                self.assertRaisesRegex(
                    TypeError, "the instant must be a Timestamp, an OffsetDateTime or a UtcDateTime", call, other
                )
        for at in (SPRING, SPRING.to_utc(), SPRING.to_offset(0)):
            self.assertRaisesRegex(TypeError, "the zone must be a Zone or the name of one", at.to_zone, 3_600)
        self.assertRaises(TypeError, self.berlin.instants_of, SPRING)
        self.assertRaises(TypeError, PlainDateTime(2024, 1, 1).at_zone, None)

    def test_the_ends_of_the_range(self):
        east, west = Zone.from_rule("XXX-24:59:59"), Zone.from_rule("XXX24:59:59")
        for zone, at in ((east, Timestamp.MAX), (west, Timestamp.MIN)):
            self.assertRaises(muxandu.RefusedResult, at.to_zone, zone)
            self.assertEqual(abs(zone.offset_at(at).whole_seconds()), 89_999)
            with self.assertRaises(muxandu.RefusedResult) as caught:
                columns.moments_to_zone([at.to_offset(0)], zone)
            self.assertEqual(caught.exception.count, 0)
        self.assertEqual(Timestamp.MIN.to_zone(east), Timestamp.MIN)
        beyond = OffsetDateTime(999_999, 12, 31, 23, offset_seconds=-3_600)
        self.assertRaises(muxandu.RefusedResult, beyond.to_zone, east)

    def test_instants_on_both_sides_of_a_transition(self):
        second = Duration(1)
        for at, before, after in ((SPRING, 3_600, 7_200), (AUTUMN, 7_200, 3_600)):
            for first, offset, then, other in ((at, after, at - second, before), (at - second, before, at, after)):
                zone = Zone.from_rule(BERLIN)
                self.assertEqual((zone.offset_at(first), zone.offset_at(then)), (UtcOffset(offset), UtcOffset(other)))
                rows = columns.moments_to_zone([first.to_offset(0), then.to_offset(0)], zone)
                self.assertEqual([row.offset_seconds for row in rows], [offset, other])

    def test_many_instants_of_one_zone_in_any_order(self):
        # The file has a transition every 10,000 s, so that intervals share the places where they are kept.
        zone = Zone.from_bytes(many_transitions(512))
        for step in (1, 7, 101, 389):
            for place in range(0, 512 * step, step):
                second = place % 512 * 10_000
                self.assertEqual(zone.offset_at(Timestamp(second)), UtcOffset(second // 10_000 % 2 * 60))
                self.assertEqual(zone.offset_at(Timestamp(second + 9_999, 1)), UtcOffset(second // 10_000 % 2 * 60))
        for second in (-(10**12), -1):
            self.assertEqual(zone.offset_at(Timestamp(second)), UtcOffset(0))

    def test_abbreviations(self):
        for at, name, is_daylight in (
            (SPRING, "CEST", True),
            (SPRING - Duration(0, 1), "CET", False),
            (AUTUMN.to_utc(), "CET", False),
        ):
            self.assertEqual((self.berlin.abbreviation_at(at), self.berlin.local_type_at(at).is_daylight), (name, is_daylight))
            self.assertEqual(self.berlin.local_type_at(at).offset, self.berlin.offset_at(at))
        self.assertEqual(Zone.from_rule("<+1030>-10:30").abbreviation_at(SPRING), "+1030")
        self.assertEqual(Zone.from_rule("A" * 70 + "1").abbreviation_at(SPRING), "A" * 70)
        for call in (self.berlin.abbreviation_at, self.berlin.local_type_at):
            self.assertRaises(TypeError, call, 0)

    def test_transitions(self):
        found = self.berlin.next_transition(SPRING)
        self.assertEqual((found.at, found.before.offset, found.after.offset), (AUTUMN, UtcOffset(7_200), UtcOffset(3_600)))
        self.assertEqual((found.before.is_daylight, found.after.is_daylight), (True, False))
        self.assertEqual(self.berlin.previous_transition(AUTUMN.to_utc()).at, SPRING)
        self.assertEqual(self.berlin.previous_transition(AUTUMN + Duration(0, 1)), found)
        self.assertEqual(self.berlin.next_transition(SPRING - Duration(0, 1)).at, SPRING)
        self.assertEqual(pickle.loads(pickle.dumps(found)), found)
        one = Zone.from_bytes(file_of("", (5, (60, 0))))
        self.assertEqual(one.next_transition(Timestamp(5)), None)
        self.assertEqual(one.previous_transition(Timestamp(5)), None)
        self.assertEqual(one.next_transition(Timestamp(4)), one.previous_transition(Timestamp(5, 1)))


class WallClocks(unittest.TestCase):
    berlin = Zone.from_rule(BERLIN)
    skipped, twice, plain = PlainDateTime(2024, 3, 31, 2, 30), PlainDateTime(2024, 10, 27, 2, 30), PlainDateTime(2024, 7, 1, 9)

    def test_one(self):
        times, gap = self.berlin.instants_of(self.plain)
        self.assertEqual(
            ([at.offset_seconds for at in times], [at.date_time() for at in times], gap), ([7_200], [self.plain], None)
        )
        for choice in ("compatible", "earlier", "later", "reject"):
            self.assertTrue(self.plain.at_zone(self.berlin, choice).is_same(times[0]))

    def test_both_of_a_fold(self):
        times, gap = self.berlin.instants_of(self.twice)
        self.assertEqual(([at.offset_seconds for at in times], gap), ([7_200, 3_600], None))
        self.assertEqual(times[1] - times[0], Duration(3_600))
        for choice, wanted in (("compatible", 0), ("earlier", 0), ("later", 1)):
            self.assertTrue(self.twice.at_zone(self.berlin, choice).is_same(times[wanted]))
        with self.assertRaises(muxandu.RefusedFold) as caught:
            self.twice.at_zone(self.berlin, "reject")
        self.assertEqual(caught.exception.value, "2024-10-27 2:30:00.0")
        self.assertRegex(caught.exception.reason, r"go back from \+02:00:00 to \+01:00:00: choose")

    def test_none_of_a_gap(self):
        times, gap = self.berlin.instants_of(self.skipped)
        self.assertEqual((times, gap.at), ((), SPRING))
        self.assertEqual((gap.start, gap.end), (PlainDateTime(2024, 3, 31, 2), PlainDateTime(2024, 3, 31, 3)))
        found = {choice: self.skipped.at_zone(self.berlin, choice) for choice in ("compatible", "earlier", "later")}
        texts = {choice: at.to_rfc3339() for choice, at in found.items()}
        late, early = "2024-03-31T03:30:00+02:00", "2024-03-31T01:30:00+01:00"
        self.assertEqual(texts, {"compatible": late, "earlier": early, "later": late})
        self.assertTrue(self.skipped.at_zone(self.berlin).is_same(found["compatible"]))
        with self.assertRaises(muxandu.RefusedGap) as caught:
            self.skipped.at_zone(self.berlin, "reject")
        self.assertEqual(caught.exception.value, "2024-03-31 2:30:00.0")
        self.assertRegex(caught.exception.reason, "go from 2024-03-31 2:00:00.0 to 2024-03-31 3:00:00.0: choose")

    def test_another_choice(self):
        for choice in ("", "COMPATIBLE", 1, None):
            self.assertRaisesRegex(
                ValueError, "a choice must be one of compatible, earlier", self.plain.at_zone, self.berlin, choice
            )

    def test_nanoseconds_stay(self):
        at = PlainDateTime(2024, 3, 31, 2, 0, 0, 5)
        self.assertEqual(str(at.at_zone(self.berlin)), "2024-03-31 3:00:00.000000005 +02:00:00")
        self.assertEqual(self.berlin.instants_of(self.twice + Duration(0, 7)).times[1].nanosecond, 7)

    def test_the_ends_of_the_range(self):
        east = Zone.from_rule("XXX-24:59:59")
        shown = PlainDateTime.MIN.at_zone(east)
        self.assertEqual((shown.date_time(), shown.offset_seconds), (PlainDateTime.MIN, 89_999))
        self.assertTrue(east.instants_of(PlainDateTime.MIN).times[0].is_same(shown))


class Values(InFolder):
    def test_equality_and_hashes(self):
        rule, data = Zone.from_rule(BERLIN), Zone.from_bytes(file_of(BERLIN))
        named = Zone("Europe/Berlin")
        zones = [rule, data, named, Zone.from_rule("UTC0")]
        for place, zone in enumerate(zones):
            self.assertEqual([other == zone for other in zones], [place == at for at in range(len(zones))])
        self.assertEqual(len({*zones, Zone.from_rule(BERLIN), Zone.from_bytes(file_of(BERLIN)), Zone("Europe/Berlin")}), 4)
        self.assertNotEqual(rule, BERLIN)

    def test_pickles_and_copies(self):
        for zone in (Zone("Europe/Berlin"), Zone.from_rule(BERLIN), Zone.from_bytes(file_of(BERLIN))):
            for again in (
                *(pickle.loads(pickle.dumps(zone, number)) for number in range(2, 6)),
                copy.copy(zone),
                copy.deepcopy(zone),
            ):
                self.assertEqual((again, hash(again), type(again)), (zone, hash(zone), Zone))
                self.assertEqual(again.offset_at(SPRING), UtcOffset(7_200))
        self.assertNotIn(b"TZif", pickle.dumps(Zone("Europe/Berlin")))

    def test_a_match_reads_the_name(self):
        match Zone("Europe/Berlin"):
            case Zone(name):
                self.assertEqual(name, "Europe/Berlin")


class Columns(unittest.TestCase):
    berlin = Zone.from_rule(BERLIN)

    def test_rows_on_the_clocks_of_a_zone(self):
        ats = [SPRING - Duration(0, 1), SPRING, AUTUMN - Duration(0, 1), AUTUMN, Timestamp.MIN, Timestamp(0), SPRING, AUTUMN]
        rows = columns.moments_to_zone([at.to_offset(0) for at in ats], self.berlin)
        self.assertEqual([(row.seconds, row.nanoseconds) for row in rows], [(at.seconds, at.nanoseconds) for at in ats])
        self.assertEqual([row.offset_seconds for row in rows], [3_600, 7_200, 7_200, 3_600, 3_600, 3_600, 7_200, 3_600])

    def test_errors(self):
        shown = SPRING.to_offset(0)
        with self.assertRaises(muxandu.RefusedTimestamp) as caught:
            columns.moments_to_zone([shown, None, shown], self.berlin)
        self.assertEqual(caught.exception.count, 1)
        out = (columns.MomentParts * 1)()
        self.assertRaises(muxandu.RefusedBuffer, columns.moments_to_zone, [shown, shown], self.berlin, out)
        self.assertRaises(muxandu.ZoneNameError, columns.moments_to_zone, [shown], "")
        self.assertRaises(TypeError, columns.moments_to_zone, [shown], 3_600)

    def test_out_may_be_the_rows(self):
        rows = columns.moments_from_rfc3339(["2024-07-01T00:00:00Z", "2024-12-01T00:00:00Z"] * 3)
        self.assertIs(columns.moments_to_zone(rows, self.berlin, rows), rows)
        self.assertEqual([row.offset_seconds for row in rows], [7_200, 3_600] * 3)


HAS_ZONES = any(os.path.exists(os.path.join(folder, "Europe/Berlin")) for folder in zoneinfo.TZPATH)


@unittest.skipUnless(HAS_ZONES, "no zones are here")
class BesideZoneinfo(unittest.TestCase):
    def test_abbreviations(self):
        for name in ("Europe/Berlin", "America/New_York", "Asia/Kathmandu", "Africa/Casablanca", "America/Nuuk"):
            zone, peer = Zone(name), zoneinfo.ZoneInfo(name)
            for year, month in itertools.product(range(1900, 2100, 7), (1, 7)):
                at = datetime.datetime(year, month, 5, tzinfo=datetime.timezone.utc)
                self.assertEqual(zone.abbreviation_at(Timestamp(int(at.timestamp()))), at.astimezone(peer).tzname(), (name, at))

    def test_the_zones_of_the_machine(self):
        for name in ("Europe/Berlin", "America/New_York", "Asia/Kathmandu", "Australia/Lord_Howe", "Africa/Casablanca", "UTC"):
            zone, peer = Zone(name), zoneinfo.ZoneInfo(name)
            with open(zone.source, "rb") as file:
                self.assertEqual(Zone.from_bytes(file.read()).offset_at(SPRING), zone.offset_at(SPRING))
            for second in range(-3_000_000_000, 6_000_000_000, 86_400 * 365 * 3 + 12_345):
                at, wanted = Timestamp(second), datetime.datetime.fromtimestamp(second, peer)
                self.assertTrue(at.to_zone(zone).is_same(OffsetDateTime.from_datetime(wanted)), (name, second))
                wall = at.to_utc().date_time()
                for fold, choice in ((0, "compatible"), (0, "earlier"), (1, "later")):
                    naive = wall.to_datetime().replace(tzinfo=peer, fold=fold)
                    if (naive.astimezone(datetime.timezone.utc).astimezone(peer)).replace(tzinfo=None) == naive.replace(
                        tzinfo=None
                    ):
                        self.assertTrue(
                            wall.at_zone(zone, choice).is_same(OffsetDateTime.from_datetime(naive)), (name, wall, choice)
                        )

    def test_the_file_of_a_zone_in_zoneinfo(self):
        berlin = Zone("Europe/Berlin")
        with open(berlin.source, "rb") as file:
            peer = zoneinfo.ZoneInfo.from_file(io.BytesIO(file.read()))
        self.assertEqual(OffsetDateTime.from_datetime(UtcDateTime(2024, 7, 1).to_datetime().astimezone(peer)).hour, 2)
        self.assertEqual(UtcDateTime(2024, 7, 1).to_zone(berlin).hour, 2)


# What the example prints: the times are those of `TZ=America/New_York date -d 2024-03-25T09:00+01:00`, and so on.
MEETINGS = """\
2024-03-25T09:00:00+01:00: Mon 04:00 in America/New_York, Mon 13:45 in Asia/Kathmandu
2024-04-01T09:00:00+02:00: Mon 03:00 in America/New_York, Mon 12:45 in Asia/Kathmandu
2024-04-08T09:00:00+02:00: Mon 03:00 in America/New_York, Mon 12:45 in Asia/Kathmandu
7 hours from 2024-03-30 22:00:00.0 to 2024-03-31 6:00:00.0
"""
EXAMPLE = Path(__file__).resolve().parents[1] / "examples" / "monday_meeting.py"


@unittest.skipUnless(EXAMPLE.exists() and HAS_ZONES, "the example, or a zone of it, is not here")
class Example(unittest.TestCase):
    def test_a_meeting_each_monday(self):
        with contextlib.redirect_stdout(io.StringIO()) as said:
            runpy.run_path(str(EXAMPLE))
        self.assertEqual(said.getvalue(), MEETINGS)


if __name__ == "__main__":
    unittest.main()
