"""`python3 -m plsdesk` is the command `plsdesk`."""

import sys

from plsdesk.command_line import main

sys.exit(main())
