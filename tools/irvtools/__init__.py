"""The tools of `irv`: reports, simulator, CSV, batch verification, packages, search and checkers."""

import sys

sys.dont_write_bytecode = True      # a call leaves nothing in the checkout
