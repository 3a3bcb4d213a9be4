"""`python3 -m ccp_tools COMMAND ..` is `ccp COMMAND ..`."""
import sys

from .cli import main

sys.exit(main(sys.argv[1:]))
