"""python3 -m rds_monitor"""

import gc
import sys

# Nothing that is imported is garbage, and to look for it takes a tenth of the time of a short command.
gc.set_threshold(100000)

try:
    from .cli import main
except ModuleNotFoundError as error:
    sys.exit(f"rds-monitor needs the Python module {error.name}: install python3-{error.name}")


def run() -> None:
    status = main()
    gc.freeze()
    sys.exit(status)


if __name__ == "__main__":
    run()
