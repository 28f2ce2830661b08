"""Where the parts of the repository stand."""
import os

HARNESS = os.path.dirname(os.path.abspath(__file__))
ROOT = os.path.dirname(os.path.dirname(HARNESS))
EXAMPLES = os.path.join(ROOT, "examples")
# database files as earlier versions wrote them
OLDER_FILES = os.path.join(ROOT, "tests", "older_files")
