"""Makes `python3 -m julampok` the same as the executable."""

import sys

if sys.version_info < (3, 11):
    sys.stderr.write("julampok: Python 3.11 or newer is wanted; this is Python %d.%d\n" % sys.version_info[:2])
    sys.exit(2)

from julampok.cli import main  # noqa: E402

if __name__ == "__main__":
    sys.exit(main())
