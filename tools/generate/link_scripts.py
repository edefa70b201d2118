"""All scripts over a link: how many of each style, each plan and each scene there are, by which seeds. A job names a script: its kind, its seed, and
what a scene is told.
"""
from itertools import cycle
from typing import Any, Callable

from generate import link_scenes
from generate.link_plans import PLANNED, Planner
from generate.link_scenes import Scene
from generate.link_writers import Style, Writer
from model.facts import LAST_RING

SEED = 20311126
Job = tuple[Any, ...]
SMALL, ALL = (2, 4, 6, 10, 20), (2, 4, 10, 20, 60, 128, 200, 254)
RINGS = (1, 2, 3, 8, 300, LAST_RING)

STYLES = {style.name: style for style in (
    Style("level", 2500, ALL, (1, 2, 3, 5, 10)),
    Style("hasty", 2500, ALL, (1, 2, 3, 10, 127), starts="hasty", weights={"terminate": 2}),
    Style("stale", 2500, ALL, (3, 10, 127), starts="stale", seeks=0.25, commands=0.05,
          weights={"clcw": 22, "down": 3, "pump": 0.3, "lose_down": 0.3, "work": 6, "terminate": 3}),
    Style("crowd", 2500, (10, 20, 60, 254), (8, 10, 127), starts="stale", seeks=0.3, commands=0.05, t1s=(2, 4),
          weights={"up": 22, "clcw": 16, "down": 2, "work": 3, "pump": 0.2, "lose_down": 0.3, "tick": 6, "burst": 8, "terminate": 1}),
    Style("timer", 2000, ALL, (1, 2, 4), seeks=0.05, t1s=(1, 2), weights={"tick": 14, "lose_up": 8, "lose_down": 8}),
    Style("schedule", 2500, (20, 60), (10,), commands=0.55, asks=0.03,
          weights={"turn_clock": 5, "up": 20, "work": 16, "down": 34, "tick": 0.5, "lose_up": 0.5, "spoil": 0.2, "pump": 6}),
    Style("wide", 4000, (200, 254), (50, 100, 127), commands=0, asks=0.05, starts="hasty",
          weights={"burst": 14, "fly": 20, "up": 16, "work": 10, "clcw": 2, "down": 9, "terminate": 0.1, "lose_up": 1, "settle": 0.3}),
    Style("round", 4000, SMALL, (1, 2, 3, 5), commands=0, asks=0.03, limits=(255,), t1s=(2, 3),
          weights={"terminate": 0.02, "settle": 0.1, "pump": 30, "spoil": 0}),
)}
# Longer ones, in which after each act is asked where the requests stand.
TOLD = {style.name: style for style in (
    Style("kept", 22000, ALL, (1, 2, 3, 5, 10), commands=0.5, lists=0.7, asks=0, every=("places",)),
    Style("broken", 6000, ALL, (2, 3, 10), starts="hasty", asks=0, every=("places",), weights={"terminate": 2}),
)}
STYLES |= {style.name: style for size in RINGS for style in (
    Style(f"ring of {size}", 2500, ALL, (1, 2, 3, 10), starts="hasty", weights={"terminate": 2, "burst": 6, "clcw": 30, "tick": 6}, ring=size),)}
TOLD |= {style.name: style for size in RINGS for style in (
    Style(f"kept over a ring of {size}", 5000, ALL, (1, 1, 2, 3, 10), commands=0.5, lists=0.7, asks=0, every=("places",), ring=size,
          weights={"burst": 6, "clcw": 20, "tick": 6}),)}
SCENES: list[Job] = [
    *[("every_k", w, least, most) for w, least, most in ((254, 1, 45), (254, 46, 90), (254, 91, 127), (128, 40, 64), (20, 1, 10), (2, 1, 1))],
    *[("overwritten", size) for size in RINGS],
    *[("widest",), ("full_schedule",), ("lists",), ("same_name",)],
    *3 * [("ends_of_time",), ("mirror_behind",), ("reports_lost",), ("insert_in_doubt",), ("report_after_confirm",),
          ("reset_all",), ("crowded",), ("locked_out",), ("unlevel",), ("waits",), ("ended",)]]
# How many scripts of each style there are.
COUNTS = {"planned": 8, "level": 5, "hasty": 5, "stale": 2, "crowd": 2, "timer": 3, "schedule": 6, "wide": 2, "round": 2, "kept": 3,
          "broken": 2, **{name: 2 for size in RINGS for name in (f"ring of {size}", f"kept over a ring of {size}")}}
# What acts and questions of these scripts are refused; nothing names lines that do not read.
REFUSED = {"enter": (2, 19), "approve": (2, 3, 5, 6), "withdraw": (2, 3), "close": (2, 3), "release": (2, 3, 4, 10, 11, 19),
           "set vs": (12,), "set k": (12,), "initiate none": (12,), "initiate check": (12,), "initiate unlock": (12,), "initiate setvr": (12,),
           "clock": (12,), "history": (2,), "request": (2,), "approvestack": (13,), "begin": (16,), "step": (16,), "log": (16,),
           "": (1, 17)}


def written(job: Job) -> Writer:
    """The script of a job."""
    kind, seed, *words = job
    if kind == "planned":
        return Planner(seed).write()
    if kind in STYLES or kind in TOLD:
        return Writer(seed, STYLES.get(kind) or TOLD[kind]).write()
    scene: Callable[..., Scene] = getattr(link_scenes, kind)
    return scene(seed, *words)


def some_jobs(seed: int, count: int) -> list[Job]:
    """So many random scripts, with seeds from this one on, one of each kind in turn."""
    return list(zip(cycle(COUNTS), range(seed, seed + count)))


def jobs_of(seed: int = SEED) -> list[Job]:
    """All scripts, the longest first."""
    jobs: list[Job] = [(kind, seed + number) for kind, count in COUNTS.items() for number in range(count)]
    jobs += [(scene[0], seed + number, *scene[1:]) for number, scene in enumerate(SCENES)]
    turns = {"planned": PLANNED.turns, "same_name": 16384, **{name: style.turns for name, style in (STYLES | TOLD).items()}}
    return sorted(jobs, key=lambda job: -turns.get(job[0], 0))
