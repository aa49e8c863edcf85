"""python3 -m gustparsley is the tool `gust`."""
import sys

from .tool import main

sys.exit(main())
