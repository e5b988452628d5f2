"""The report as JSON. Sizes are pages, or megabytes where the name says mb."""

import dataclasses
import datetime
import json

from .advice import pages_to_scan
from .census import Heavy
from .figures import Figure
from .look import Seen
from .report import Report
from .units import MEGABYTE, PAGE, megabytes, percent

COUNTERS = ["pages_shared", "pages_sharing", "pages_unshared", "ksm_zero_pages"]


def setting_as_dict(report: Report, of: Figure) -> dict[str, object]:
    """A setting, what the kernel's counters come to with it, and what that means."""
    told, cost = of.told, of.told.cost / MEGABYTE
    saved = megabytes(told.saved)
    return {**dataclasses.asdict(told.setting), "saved_mb": saved, "saved_from_mb": megabytes(of.low),
            "saved_to_mb": megabytes(of.high), "saved_percent": percent(told.saved, report.pages),
            "in_addition_mb": megabytes(told.saved - report.already), "cost_mb": cost, "net_mb": saved - cost,
            **{name: round(getattr(told, name)) for name in COUNTERS}, "split_zeroes": round(told.split),
            "by_order_mb": megabytes(told.by_order)}


def process_as_dict(report: Report, owner: int, seen: Seen) -> dict[str, object]:
    """A process, in pages of its memory."""
    return {"pid": seen.process.pid, "name": seen.process.name, "pages": seen.pages, "marked_pages": seen.space.marked,
            "huge_pages": seen.space.huge, "pages_with_copies": round(report.census.repeated[owner]),
            "merged_pages": seen.told.merged, "zeroed_pages": seen.told.zeroed, "pinned_by": list(seen.pinned.by),
            "pinned_pages": max(seen.pinned.pages, seen.counts.pinned), "grown": seen.grown,
            "changed": seen.counts.changed, "gone": seen.counts.gone, "unread": seen.counts.unread,
            "has_ended": seen.has_ended}


def heavy_as_dict(report: Report, heavy: Heavy) -> dict[str, object]:
    """One of the heaviest contents. Of what it is no more is told than whether it is zeroes."""
    return {"copies": heavy.copies, "mb": megabytes(heavy.copies), "is_zeroes": heavy.is_zero,
            "pids": sorted({report.seen[owner].process.pid for owner, _ in heavy.owners})}


def already_as_dict(report: Report) -> dict[str, object]:
    """What KSM saves among these processes by now."""
    census = report.census
    return {"saved_mb": megabytes(report.already), "merged_pages": round(census.merged_pages),
            "merged_frames": round(census.merged_frames), "ksm_zero_pages": census.zeroed,
            "frames_are_told": report.are_frames_told, "zeroes_are_told": report.are_zeroes_told}


def as_dict(report: Report) -> dict[str, object]:
    """The report as what JSON has."""
    figures = report.figures
    return {
        "time": datetime.datetime.now().astimezone().isoformat(timespec="seconds"),
        "kernel": dataclasses.asdict(report.kernel), "page_bytes": PAGE, "only_mergeable": report.only_marked,
        "known": {"kind": figures.kind, "read_percent": 100 * figures.read, "taken_percent": 100 * figures.taken},
        "pages": round(report.pages), "memory_mb": megabytes(report.pages), "nodes_from": report.nodes_from,
        "already": already_as_dict(report),
        "settings": [setting_as_dict(report, of) for of in figures.settings],
        "by_node_mb": {str(node): megabytes(pages) for node, pages in report.by_node.items()},
        "processes": [process_as_dict(report, owner, seen) for owner, seen in enumerate(report.seen)],
        "not_allowed": report.refused,
        "in_common": {"pids": [report.seen[owner].process.pid for owner in report.shown],
                      "mb": [[megabytes(pages) for pages in row] for row in report.census.matrix()]},
        "heaviest": [heavy_as_dict(report, heavy) for heavy in report.heaviest()],
        "left_out_pages": {**dataclasses.asdict(report.left_out), "pinned": report.total("pinned"),
                           "mapped_again_after_fork": round(report.census.mapped_again())},
        "may_be_pinned_pages": report.maybe_pinned(), "zeroes_of_huge_pages": report.split,
        "pages_to_scan_for_ten_minutes": pages_to_scan(report),
        "effort": dataclasses.asdict(report.effort), "checked": dataclasses.asdict(report.checked),
    }


def as_json(report: Report) -> str:
    """The report as JSON."""
    return json.dumps(as_dict(report), indent=2)
