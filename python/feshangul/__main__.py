"""`python3 -m feshangul`."""

import sys

from .command import main

sys.exit(main())
