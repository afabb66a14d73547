"""What the scripts of this folder share: nodes, connections of real SQLite, waits, and the lines that a script prints.

A script is `tests/NAME.py`. Its head says what it tests, `At most: N seconds.`, and by what broken thing it was seen
to fail. It gives its cases to `run`, which prints one line for each and ends with 0, 1 (a case failed) or 77 (none
ran)."""
from .cases import holds, length, refuses, run, same, skip_all
from .client import Client
from .cluster import Cluster
from .curl import curl
from .mounted import small_disk
from .node import KEEP_ALL, Node, applied, configuration, read
from .outcomes import Skipped, Wrong
from .places import ROOT, TESTS, program, vfs
from .reading import Readers, Watch, rows
from .relay import Relay
from .running import free_port, outcome
from .service import Service
from .sqlite import MODES, connect, in_mode, seen_by
from .waiting import Late, until
from .wire import Link, Refused
from .workload import commits, count, fill, in_each_mode, insert, level_pair
