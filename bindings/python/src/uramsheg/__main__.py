"""`python3 -m uramsheg` is the command."""
import sys

from .command import main

sys.exit(main())
