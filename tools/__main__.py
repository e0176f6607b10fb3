"""Starts a subcommand, by `python3 tools SUBCOMMAND ..` from any folder, or by `python3 -m tools SUBCOMMAND ..` from the root."""
import os
import sys

if not __package__:
    # run by its folder's name: the modules here belong to the package, and are not to be found beside it
    sys.path[0] = os.path.dirname(os.path.dirname(os.path.abspath(__file__)))

from tools.command import main  # noqa: E402 (the path has to be right first)

if __name__ == "__main__":
    sys.exit(main(sys.argv[1:]))
