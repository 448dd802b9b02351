"""What is compared of the reports of all stations; tools/host_reports.py makes one script and one listing of them."""

import sys

from .build import ROOT
from .hosts import Fault

sys.path.insert(0, str(ROOT / "tools"))

import host_reports  # noqa: E402


def reports(hosts, rounds):
    """The reports, each of all the rounds."""
    try:
        found = host_reports.read(host.file("report") for host in hosts)
    except host_reports.Wrong as wrong:
        raise Fault(str(wrong)) from None
    for host, report in zip(hosts, found):
        if len(report.masks) != rounds:
            raise Fault(f"station {host.station} reports {len(report.masks)} rounds, not {rounds}")
        if report.posts[rounds] or report.refusals[rounds]:
            raise Fault(f"station {host.station} reports a post after its last round")
    return found


def compare(found):
    """Compares what the stations told with the listing of the recorded script; gives both."""
    try:
        host_reports.compare(found)
    except host_reports.Wrong as wrong:
        raise Fault(str(wrong)) from None
    return host_reports.script_of(found), host_reports.listing_of(found)


def check_output(host):
    """Standard output: what the report has but for R lines, each time from where it was saved last; nothing else."""
    told = [line for line in host.file("report").read_text(encoding="ascii").splitlines() if line[0] != "R"]
    at = 0
    for line in host.file("out").read_text(encoding="ascii").splitlines():
        if at < len(told) and told[at] == line:
            at += 1
            continue
        back = max((k for k in range(at) if told[k] == line), default=None)
        if back is None:
            raise Fault(f"station {host.station} printed a line that its report does not have there: {line}")
        at = back + 1
    if at != len(told):
        raise Fault(f"station {host.station} printed {at} of {len(told)} lines of its report")
