"""`python3 -m office`, where `tools` is the folder or is on the path."""
import sys

from office.main import main

if __name__ == "__main__":
    sys.exit(main())
