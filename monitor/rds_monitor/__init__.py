"""What a station sent and how well it was received: tables, alarms and databases from RDS recordings and listings."""

import os
import sys

__version__ = "0.2.0"

# Runs rds-monitor from the folder that is named first, whatever the paths of this process are.
_PROGRAM = "import sys; sys.path.insert(0, sys.argv.pop(1)); from rds_monitor.__main__ import run; run()"
# The words of a command line that do it.
ITSELF = (sys.executable, "-c", _PROGRAM, os.path.dirname(os.path.dirname(os.path.abspath(__file__))))
