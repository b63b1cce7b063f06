"""Which version this is, and which Python it needs: older ones are told so in one line. Nothing here is newer than what
they read."""
import sys

__version__ = '1.0.0'

if sys.version_info < (3, 10):
    _words = (
        'warpladle needs Python 3.10 or newer, and this is %d.%d; PYTHON names another for ./warpladle'
        % sys.version_info[:2]
    )
    if sys.argv and sys.argv[0] == '-m':  # the command: a line and no traceback
        sys.stderr.write(_words + '\n')
        sys.exit(2)
    raise ImportError(_words)
