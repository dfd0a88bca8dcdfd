#!/usr/bin/env python3
import os
import signal
import sys

# Ctrl-C ends a command, also while it is read
if signal.getsignal(signal.SIGINT) != signal.SIG_IGN:
    signal.signal(signal.SIGINT, signal.SIG_DFL)
package = os.path.join(os.path.dirname(os.path.dirname(os.path.realpath(__file__))), "share", "minorder", "python")
if os.path.isdir(package):
    sys.dont_write_bytecode = True
    sys.path.insert(0, package)
from MODULE import main  # noqa: E402

sys.exit(main())
