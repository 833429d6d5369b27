"""The same by croniter: the words are a schedule, the name of its zone, and how many searches are
made."""
import datetime
import sys
import time
import zoneinfo

from croniter import croniter

schedule, zone, searches = sys.argv[1], zoneinfo.ZoneInfo(sys.argv[2]), int(sys.argv[3])
times = croniter(schedule, datetime.datetime.fromtimestamp(1704067200, zone))
began = time.process_time()
for _ in range(searches):
    times.get_next(datetime.datetime)
print(f"{searches / max(time.process_time() - began, 1e-9):.0f}")
