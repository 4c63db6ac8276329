"""`python3 -m pozsmeteg.desk` is the command `desk`."""
import sys

from .main import main

sys.exit(main())
