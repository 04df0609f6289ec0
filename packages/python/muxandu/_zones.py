"""Time zones with rules, found by their names and read from bytes."""

from __future__ import annotations

import functools
import os
import stat
from typing import Any, ClassVar, NamedTuple, NoReturn, Optional, TypeVar, Union

from . import _extension as engine
from ._refusals import REASONS, REFUSALS
from ._clocks import PlainDateTime, UtcDateTime
from ._values import OffsetDateTime, Timestamp, UtcOffset, _complete

# The file of the machine's zone, and the most bytes that are read of a file.
_LOCAL, _MOST = "/etc/localtime", 1 << 20

_Zone = TypeVar("_Zone", bound="Zone")
_Instant = Union[Timestamp, OffsetDateTime, UtcDateTime]


class ZoneError(ValueError):
    """There is no such zone. `zone` is its name, or the path of its file."""

    def __init__(self, told: str, zone: str) -> None:
        super().__init__(told, zone)
        self.zone = zone

    def __str__(self) -> str:
        return str(self.args[0])

    def __init_subclass__(cls) -> None:
        cls.__module__ = "muxandu"


class ZoneNameError(ZoneError):
    """A text that can be no name of a zone. No file is touched then."""


class UnknownZoneError(ZoneError):
    """No folder of zones has a file of this name, and no package `tzdata` either."""


class LocalType(NamedTuple):
    """The local time of a zone from one transition to the next: its offset, and whether it is
    daylight saving time."""

    offset: UtcOffset
    is_daylight: bool


class Transition(NamedTuple):
    """An instant at which the clocks of a zone go from one kind of local time to another, which it
    has from then on."""

    at: Timestamp
    before: LocalType
    after: LocalType


class Gap(NamedTuple):
    """Wall clocks that the clocks of a zone skip at an instant: from `start` up to `end`."""

    at: Timestamp
    start: PlainDateTime
    end: PlainDateTime


class LocalTimes(NamedTuple):
    """All date-times of a zone with one wall clock: one, both of a fold in their order, or none in
    a gap."""

    times: tuple[OffsetDateTime, ...]
    gap: Optional[Gap]


class _Found(NamedTuple):
    """The bytes of the file of a zone, the place of that file, and the version of the data."""

    data: bytes
    source: str
    version: Optional[str]


def _folders() -> tuple[str, ...]:
    """The folders that may have zones: `TZDIR` if it is set, else those of `zoneinfo`."""
    folder = os.environ.get("TZDIR")
    if folder:
        return (folder,)
    import zoneinfo

    return tuple(zoneinfo.TZPATH)


def _bytes_of(path: str) -> Optional[bytes]:
    """The bytes of a file, or None where there is none. A folder or a device is none."""
    try:
        if not stat.S_ISREG(os.stat(path).st_mode):
            return None
        with open(path, "rb") as file:
            data = file.read(_MOST + 1)
    except (FileNotFoundError, NotADirectoryError):
        return None
    if len(data) > _MOST:
        raise ZoneError(f"the file {path} has more than {_MOST} bytes: name one of a zone", path)
    return data


def _version_in(folder: str) -> Optional[str]:
    """The version of the data of a folder, such as 2025b, where a file tells it."""
    for name in ("+VERSION", "tzdata.zi"):
        try:
            with open(os.path.join(folder, name), encoding="ascii", errors="replace") as file:
                return file.readline(100).removeprefix("# version ").strip() or None
        except OSError:
            continue
    return None


def _in_package(name: str) -> Optional[_Found]:
    """The file of a zone of the package `tzdata` of PyPI, where it is installed."""
    from importlib import import_module, resources

    try:
        package = import_module("tzdata")
    except ModuleNotFoundError:
        return None
    place = resources.files(package).joinpath("zoneinfo", *name.split("/"))
    return _Found(place.read_bytes(), "package tzdata", getattr(package, "IANA_VERSION", None)) if place.is_file() else None


def _find(name: str, folders: tuple[str, ...]) -> _Found:
    """The file of a zone in the first of these folders that has it, or in the package `tzdata`."""
    for folder in folders:
        path = os.path.join(folder, *name.split("/"))
        data = _bytes_of(path)
        if data is not None:
            return _Found(data, path, _version_in(folder))
    found = _in_package(name)
    if found is None:
        told = (
            f"there is no zone {name!r} in {', '.join(folders) or 'no folder'}: see its spelling, or install the package tzdata"
        )
        raise UnknownZoneError(told, name)
    return found


def _local_link() -> tuple[Optional[str], Optional[str]]:
    """The name of the zone to which the file of the machine's zone is a link, and the version of
    its folder."""
    try:
        target = os.path.normpath(os.path.join(os.path.dirname(_LOCAL), os.readlink(_LOCAL)))
    except OSError:
        return None, None
    for folder in _folders():
        name = target.removeprefix(os.path.join(folder, ""))
        if name != target and engine.is_zone_name(name):
            return name, _version_in(folder)
    return None, None


# The reasons for which a file is no zone that are of no byte of it.
_OF_NO_BYTE = ("A transition that is out of range", "A rule that overlaps itself", "More than 512 transitions")


def _refuse(value: object, status: int, place: int, reason: int) -> NoReturn:
    """Raises why there is no zone of a file or of a rule, with the byte, or with the number of the
    transition at fault."""
    said = REASONS.get(reason, "")
    if not said.startswith(_OF_NO_BYTE):
        raise REFUSALS[status](None, value, place, said)
    is_transition = said.startswith(_OF_NO_BYTE[0])
    raise REFUSALS[status](None, value, None, f"transition {place}: {said}" if is_transition else said)


@_complete
class Zone(engine.Zone):
    """A time zone with rules, by its name, such as Europe/Berlin.

    Its file is in the folder `TZDIR`, or else in one of zoneinfo.TZPATH, or in the package `tzdata`
    of PyPI. `source` is the path of the file or "package tzdata". `version` is that of the data,
    such as 2025b, or None where their folder does not tell it. The package keeps the last 1,024
    zones by their names: clear_cache() drops them, so that changed files count. ZoneNameError for
    a text that can be no name. UnknownZoneError if there is no such file, and RefusedSyntax, with
    the byte and the reason, if it is not of a zone.
    """

    __slots__ = ()

    _names: ClassVar[tuple[str, ...]] = ("name",)

    @classmethod
    def from_bytes(cls: type[_Zone], data: bytes) -> _Zone:
        """The zone of the bytes of a file of RFC 9636, versions 1 to 4. RefusedSyntax if they are
        none, with the byte and the reason."""
        data = bytes(memoryview(data))
        return cls._read(data, data, None, None, None, data)

    @classmethod
    def from_rule(cls: type[_Zone], text: str) -> _Zone:
        """The zone of a rule for all years in the form of the variable `TZ`, such as
        CET-1CEST,M3.5.0,M10.5.0/3, with the hours of RFC 9636. RefusedSyntax if it is none, with
        the byte and the reason."""
        if not isinstance(text, str):
            raise TypeError(f"a rule must be a str, not {type(text).__name__}")
        text = str.__str__(text)
        found = cls._of_rule(text)
        return _refuse(text, *found) if isinstance(found, tuple) else found

    @classmethod
    def local(cls: type[_Zone]) -> _Zone:
        """The zone of the machine: that of the variable `TZ`, which is a name, perhaps after a
        colon, or a rule. An empty `TZ` is UTC. Without `TZ` it is that of /etc/localtime, and UTC
        where that file is not there."""
        text = os.environ.get("TZ")
        data = _bytes_of(_LOCAL) if text is None else None
        if data is not None:
            name, version = _local_link()
            return cls._read(_LOCAL, data, name, _LOCAL, version, data)
        if not text:
            return cls.from_rule("UTC0")
        if text.startswith(":"):
            return cls(text[1:])
        if not engine.is_zone_name(text):
            return cls.from_rule(text)
        try:
            return cls(text)
        except UnknownZoneError as error:
            try:
                return cls.from_rule(text)
            except ValueError:
                raise error from None

    @staticmethod
    def clear_cache() -> None:
        """Lets go of the zones that are kept by their names."""
        _named.cache_clear()

    @classmethod
    def _read(
        cls: type[_Zone],
        value: object,
        data: bytes,
        name: Optional[str],
        source: Optional[str],
        version: Optional[str],
        made_of: Union[bytes, str],
    ) -> _Zone:
        """The zone of the bytes of a file. An error names `value`."""
        found = cls._of_bytes(data, name, source, version, made_of)
        return _refuse(value, *found) if isinstance(found, tuple) else found

    def instants_of(self, wall: PlainDateTime) -> LocalTimes:
        """All date-times of the zone with a wall clock: one, two where clocks are put back over it,
        or none where they are put forward past it, with the ends of the gap."""
        times, gap = self._instants_of(wall)
        return LocalTimes(times, None if gap is None else Gap(Timestamp(gap[0]), *gap[1:]))

    def local_type_at(self, at: _Instant) -> LocalType:
        """The offset of the zone at an instant, and whether it is daylight saving time."""
        offset, is_daylight = self._type_at(at)
        return LocalType(UtcOffset(offset), is_daylight)

    def next_transition(self, at: _Instant) -> Optional[Transition]:
        """The first transition after an instant, or None if there is none in range."""
        return _transition(self._next(at))

    def previous_transition(self, at: _Instant) -> Optional[Transition]:
        """The last transition before an instant, or None if there is none in range."""
        return _transition(self._previous(at))

    def __reduce__(self) -> tuple[Any, ...]:
        kind = type(self)
        if self.name is not None:
            return kind, (self.name,)
        return (kind.from_rule if isinstance(self._made_of, str) else kind.from_bytes), (self._made_of,)

    def __eq__(self, other: object) -> bool:
        if not isinstance(other, Zone):
            return NotImplemented
        return (self.name, self._made_of) == (other.name, other._made_of)

    def __hash__(self) -> int:
        return hash((self.name, self._made_of))

    def __repr__(self) -> str:
        kind = type(self).__name__
        if self.name is not None:
            return f"{kind}({self.name!r})"
        if isinstance(self._made_of, str):
            return f"{kind}.from_rule({self._made_of!r})"
        return f"<{kind} of {len(self._made_of)} bytes>"


def _transition(found: Any) -> Optional[Transition]:
    """The transition of its numbers."""
    if found is None:
        return None
    second, *kinds = found
    return Transition(Timestamp(second), *(LocalType(UtcOffset(offset), is_daylight) for offset, is_daylight in kinds))


@functools.lru_cache(maxsize=1_024)
def _named(kind: Any, name: str, folders: tuple[str, ...]) -> Any:
    """The zone of a class with a name that can be one."""
    found = _find(name, folders)
    return kind._read(found.source, found.data, name, found.source, found.version, found.data)


def _find_zone(kind: Any, name: Any) -> Any:
    """The zone of a class with a name."""
    if not isinstance(name, str):
        raise TypeError(f"the name of a zone must be a str, not {type(name).__name__}")
    name = str.__str__(name)
    if not engine.is_zone_name(name):
        raise ZoneNameError(f"{name!r} can be no name of a zone: write one such as Europe/Berlin", name)
    return _named(kind, name, _folders())


def told_of(wall: PlainDateTime, zone: Any) -> str:
    """The reason of the error of a wall clock that clocks of a zone skip or show twice."""
    found = zone if isinstance(zone, Zone) else Zone(zone)
    times, gap = found.instants_of(wall)
    ends = f"from {gap.start} to {gap.end}" if gap else f"back from {times[0].offset()} to {times[1].offset()}"
    return f'the clocks of {found!r} go {ends}: choose "compatible", "earlier" or "later"'


for _kind in (Gap, LocalTimes, LocalType, Transition, ZoneError):
    _kind.__module__ = "muxandu"

engine.bind_zones(_find_zone)
