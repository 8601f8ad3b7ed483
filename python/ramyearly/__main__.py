"""python3 -m ramyearly: the command, where the archive is built already."""

import sys

from .command import main

sys.exit(main(sys.argv[1:]))
