#!/usr/bin/env python3
"""Turns what `perf script` prints of Linux's events iommu:map and iommu:unmap into a trace that `vtdm check` reads.

    perf record -e iommu:map -e iommu:unmap -a -- WORKLOAD
    perf script | perf_to_trace.py [--lazy] [--width 39|48] | vtdm check

The events name no domain and no rights: record one busy domain, of the width that is given; each map is written with both rights.
What a page is mapped to is of no account where no request is in the trace, and hosts have more memory than the model: each map is
written with the same host frame. A range of more than 4,096 pages is written in parts. What isn't such an event is passed over, and so
is an unmap of pages of which none was seen to be mapped: it is of a time before the record.

In lazy mode (iommu.strict=0) a flush has no event: one is written where a map takes pages that wait for it, and so such a map is
believed to come after a flush."""

import argparse
import re
import sys

PAGE_BYTES = 4096
MOST_PAGES = 4096
MOST_RECORDS = 256
FRAME = 0x1000
NUMBER = r"(0x[0-9a-f]+|[0-9]+)"
EVENT = re.compile(rf"iommu:(map|unmap): .*?iova={NUMBER}.*?\bsize={NUMBER}")


def parts_of(address, size):
    """The parts of a range, each of at most as many pages as one call may have."""
    first, pages = address // PAGE_BYTES, -(-size // PAGE_BYTES)
    while pages:
        count = min(pages, MOST_PAGES)
        yield first, count
        first, pages = first + count, pages - count


class Domain:
    """The one domain of a trace: the pages that were seen mapped, and what was unmapped and isn't flushed, in pages."""

    def __init__(self, lazy, width):
        self.lazy, self.live, self.retired = lazy, set(), []
        self.say(f"domain {'lazy' if lazy else 'strict'} {width}", "domain 1")

    def say(self, call, reply):
        print(f"{call} => {reply}")

    def map(self, first, pages):
        if any(first < start + count and start < first + pages for start, count in self.retired):
            self.say("flush 1", f"flushed {len(self.retired)}")
            self.retired.clear()
        self.live.update(range(first, first + pages))
        self.say(f"map 1 {FRAME:#x} {pages} 0 rw", f"map {first * PAGE_BYTES:#x}")

    def unmap(self, first, pages):
        if self.live.isdisjoint(range(first, first + pages)):
            return
        self.live.difference_update(range(first, first + pages))
        released = len(self.retired) if len(self.retired) == MOST_RECORDS else 0
        self.say(f"unmap 1 {first * PAGE_BYTES:#x} {pages}", f"unmapped {released}")
        if released:
            self.retired.clear()
        if self.lazy:
            self.retired.append((first, pages))


def main():
    parser = argparse.ArgumentParser(description="perf script's lines of iommu:map and iommu:unmap to a trace of calls and replies")
    parser.add_argument("--lazy", action="store_true", help="the kernel ran with iommu.strict=0")
    parser.add_argument("--width", type=int, choices=(39, 48), default=48, help="the bits of the domain's addresses")
    given = parser.parse_args()
    domain = Domain(given.lazy, given.width)
    for line in sys.stdin:
        found = EVENT.search(line)
        if found:
            kind, address, size = found[1], int(found[2], 0), int(found[3], 0)
            for first, pages in parts_of(address, size):
                (domain.map if kind == "map" else domain.unmap)(first, pages)


if __name__ == "__main__":
    try:
        main()
    except BrokenPipeError:
        # Whoever reads the trace has seen enough.
        sys.stderr.close()
