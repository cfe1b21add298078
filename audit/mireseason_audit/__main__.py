"""`python3 -m mireseason_audit`."""

import sys

from .main import main

sys.exit(main())
