"""`python3 -m check_page`, from the folder that has this package."""
import sys

from check_page.main import main

sys.exit(main(sys.argv[1:]))
