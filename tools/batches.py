"""An old name of glb_tools/log.py, until the next release of the package."""

from glb_tools.log import *  # noqa: F401, F403
