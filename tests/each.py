"""each.py PROGRAM: runs PROGRAM on each match file of crates/plays/stdin (standard input), and writes what it prints, one after the other."""
import subprocess
import sys

files = sys.stdin.buffer.read()
at = 0
while at < len(files):
    length = int.from_bytes(files[at : at + 3], "little")
    file = files[at + 3 : at + 3 + length]
    at += 3 + length
    sys.stdout.buffer.write(subprocess.run([sys.argv[1]], input=file, stdout=subprocess.PIPE, check=True).stdout)
