"""The tools that scripts call. tools.sh beside this file says who has them."""
from __future__ import annotations

import os
import subprocess
import sys
from typing import Optional

SCRIPT = os.path.join(os.path.dirname(os.path.abspath(__file__)), "tools.sh")


def need(*tools: str, of: Optional[str] = None, instead: str = "") -> None:
    """Ends in one line, with status 127, where one of the tools isn't on the path; `of` is who needs them, the script if None."""
    words = ["bash", "-c", '. "$SCRIPT"; need "$@"', of or sys.argv[0], *tools]
    status = subprocess.run(words, env={**os.environ, "SCRIPT": SCRIPT, "instead": instead}).returncode
    if status:
        sys.exit(status)
