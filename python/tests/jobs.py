"""Random jobs over places that are killed.

    jobs.py [--jobs N] [--seed S] [--wide] [--dask] [--first]

A place imports this module, so what the driver alone needs is imported below.
"""

import sys

if __name__ == "__main__":
    from random_jobs import main
    sys.exit(main())
