"""jeihpal-test, as `python3 -m jeihpal.testing`."""

import sys

from ._script import main

sys.exit(main())
