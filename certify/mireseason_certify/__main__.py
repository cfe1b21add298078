"""`python3 -m mireseason_certify`."""

import sys

from .main import main

sys.exit(main())
