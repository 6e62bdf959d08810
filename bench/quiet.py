# Removes the trace of a step from the Rust's core.rs: quiet.py FILE
import re
import sys

text = open(sys.argv[1]).read()
quiet, found = re.subn(r"\n *eprintln!\(.*?\n *\);", "", text, flags=re.S)
if found != 1:
    sys.exit("the trace was not found once")
open(sys.argv[1], "w").write(quiet)
