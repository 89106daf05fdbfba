"""python3 -m jeihpal_share, as share."""

import sys

from .program import main

sys.exit(main())
