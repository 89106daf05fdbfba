"""python3 -m jeihpal_play, as screenplay."""

import sys

from .program import main

sys.exit(main())
