"""The only table of OpenStreetMap's tags: it says who may use which way. No client trusts it.

The tags are those of https://wiki.openstreetmap.org/wiki/Key:highway, Key:access, Key:barrier, Key:oneway and
Tag:route=ferry. docs/MAPS.md says where routino's table differs, and why.
Change a row here if your map is used differently.
"""
from dataclasses import dataclass

STREETS = frozenset(
    "primary primary_link secondary secondary_link tertiary tertiary_link unclassified residential "
    "living_street service road".split()
)
TRUNKS = frozenset("trunk trunk_link".split())
MOTORWAYS = frozenset("motorway motorway_link".split())
# values of an access tag that open a way or a barrier, whatever a more general tag says
OPEN = frozenset("yes designated permissive destination customers official public true".split())
# values that admit only people with permission
RESTRICTED = frozenset(
    "no private agricultural forestry delivery permit residents limited restricted unsuitable military".split()
)
# values that change nothing: the kind of the way decides
OTHERS = frozenset("dismount discouraged unknown use_sidepath".split())
ONE_WAY = frozenset("yes true 1 -1 reverse reversible".split())
OPPOSITE = frozenset("opposite opposite_lane opposite_track opposite_share_busway".split())


@dataclass(frozen=True)
class Profile:
    """The rules of a profile: the ways that it uses; the ways that it uses only if `access[0]` is open; the access
    tags, from the most specific to the most general; the values that close a way; the barriers that it passes; whether
    it uses one-way streets both ways; and whether it uses roads for motor vehicles only."""

    taken: frozenset[str]
    asked: frozenset[str]
    access: tuple[str, ...]
    closed: frozenset[str]
    passed: frozenset[str]
    both_ways: bool
    motors: bool = False


PROFILES = {
    "walk": Profile(
        taken=STREETS | TRUNKS | frozenset("pedestrian footway path steps track cycleway corridor".split()),
        asked=frozenset("bridleway busway".split()),
        access=("foot", "access"),
        closed=RESTRICTED | {"use_sidepath"},
        passed=frozenset(
            "bollard block border_control bump_gate bus_trap car_barrier car_trap cattle_grid chain chicane cycle_barrier "
            "entrance footgate full-height_turnstile gate height_restrictor hampshire_gate horse_barrier horse_jump "
            "horse_stile jersey_barrier kerb kissing_gate lift_gate log motorcycle_barrier planter post rope sally_port "
            "squeeze squeeze_stile step_over stile sump_buster swing_gate toll_booth turnstile v_stile".split()
        ),
        both_ways=True,
    ),
    "cycle": Profile(
        taken=STREETS | frozenset("cycleway path track".split()),
        asked=TRUNKS | frozenset("footway pedestrian bridleway busway".split()),
        access=("bicycle", "vehicle", "access"),
        closed=RESTRICTED | {"use_sidepath"},
        passed=frozenset(
            "bollard block border_control bus_trap car_barrier car_trap cattle_grid chicane cycle_barrier entrance gate "
            "height_restrictor horse_barrier kerb lift_gate motorcycle_barrier planter post sally_port sump_buster "
            "swing_gate toll_booth".split()
        ),
        both_ways=False,
    ),
    "fire": Profile(
        taken=STREETS | TRUNKS | MOTORWAYS | frozenset("pedestrian track busway".split()),
        asked=frozenset("footway cycleway path bridleway".split()),
        access=("emergency", "motor_vehicle", "vehicle", "access"),
        closed=frozenset(["no"]),
        passed=frozenset(
            "border_control cattle_grid entrance gate kerb lift_gate sally_port swing_gate toll_booth".split()
        ),
        both_ways=True,
        motors=True,
    ),
}


def closing(profile: Profile, tags: dict[str, str]) -> str | None:
    """The access tag that closes a way or a barrier. The first of the profile's tags that is present decides."""
    tag = next((tag for tag in profile.access if tag in tags), None)
    return f"{tag}={tags[tag]}" if tag and tags[tag] in profile.closed else None


def unknown(profile: Profile, tags: dict[str, str]) -> str | None:
    """The access tag that decides, if this table does not know its value."""
    tag = next((tag for tag in profile.access if tag in tags), None)
    return f"{tag}={tags[tag]}" if tag and tags[tag] not in OPEN | RESTRICTED | OTHERS else None


def is_roundabout(tags: dict[str, str]) -> bool:
    return tags.get("junction") in ("roundabout", "circular")


def is_one_way(profile: Profile, tags: dict[str, str]) -> bool:
    """Whether a way is one-way, by its tags or by its kind; `oneway=no` prevents the latter."""
    if not profile.both_ways and tags.get("oneway:bicycle") in ONE_WAY:
        return True
    implied = is_roundabout(tags) or tags.get("highway") in ("motorway", "motorway_link")
    return tags.get("oneway", "yes" if implied else "no") in ONE_WAY


def goes_against(tags: dict[str, str]) -> bool:
    """Whether bicycles may use a one-way street both ways."""
    sides = ("cycleway", "cycleway:left", "cycleway:right", "cycleway:both")
    return tags.get("oneway:bicycle") == "no" or any(tags.get(side) in OPPOSITE for side in sides)


def is_ferry(tags: dict[str, str]) -> bool:
    return tags.get("route") == "ferry"


def refused_ferry(profile: Profile, tags: dict[str, str], ferries: bool) -> str | None:
    """Why a ferry is not used, or None. It is used if ferries are requested and its access tags admit the profile's
    people."""
    if not ferries:
        return "route=ferry, since --ferries is not asked"
    deciding = next((tag for tag in profile.access if tag in tags), None)
    return None if deciding and tags[deciding] in OPEN else f"route=ferry, not tagged as open to {profile.access[0]}"


def refused(profile: Profile, tags: dict[str, str], ferries: bool = False) -> str | None:
    """Why a way with a `highway` tag, or a ferry, is not used, or None. One-way streets are judged elsewhere."""
    if is_ferry(tags):
        return refused_ferry(profile, tags, ferries)
    kind = tags["highway"]
    opened = tags.get(profile.access[0]) in OPEN
    if kind not in profile.taken and not (kind in profile.asked and opened):
        return f"highway={kind}"
    if tags.get("motorroad") == "yes" and not (profile.motors or opened):
        return "motorroad=yes"
    if tags.get("area") == "yes":
        return "area=yes"
    return closing(profile, tags)


def blocked(profile: Profile, tags: dict[str, str]) -> str | None:
    """Why nobody can pass a node, or None: its barrier, its access tag, or both."""
    barrier = f"barrier={tags['barrier']}" if "barrier" in tags else None
    access = closing(profile, tags)
    if access:
        return f"{barrier}, {access}" if barrier else access
    opened = any(tags.get(tag) in OPEN for tag in profile.access)
    return None if opened or not barrier or tags["barrier"] in profile.passed else barrier
