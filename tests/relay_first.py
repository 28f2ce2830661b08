"""`make run`: the example's ORDERS interchange becomes the supplier's mail. First by a build without any proof, within a minute, so that
you see something; then the crates below `edirelay` are proved, with a line for each; then the proved program does it again. The bytes
have to be the same.

    python3 -m tests.relay_first HUB OWNER MOMENT NUMBER"""
import os
import subprocess
import sys

from tests import prove
from tests.harness.tree import EXAMPLES, ROOT

CRATE = os.path.join(ROOT, "crates", "edirelay")
ORDER = os.path.join(EXAMPLES, "orders.edi")


def printed(command, folder):
    """Returns what a command prints for the example's order. If it fails, its standard error is passed on."""
    with open(ORDER, "rb") as source:
        ran = subprocess.run(command, cwd=folder, stdin=source, stdout=subprocess.PIPE, stderr=subprocess.PIPE)
    if ran.returncode:
        sys.stderr.write(ran.stderr.decode(errors="replace"))
    return ran.returncode, ran.stdout


def told(mail):
    sys.stdout.buffer.write(mail)
    print(flush=True)


def main(words):
    print("make run: the mail from a build without any proof, in seconds", flush=True)
    status, first = printed(["rt", "try", "--", *words], CRATE)
    if status:
        return 1
    told(first)
    print("make run: nothing of that was proved. The proofs follow, a line for each crate; they take some minutes.", flush=True)
    if prove.main(["edirelay", *words]):
        return 1
    status, proved = printed([os.path.join(CRATE, "out", "edirelay"), *words], ROOT)
    told(proved)
    if status or proved != first:
        print("make run: the proved program printed something else")
        return 1
    print("make run: this is the proved program's mail, byte for byte the same")
    return 0


if __name__ == "__main__":
    try:
        sys.exit(main(sys.argv[1:]))
    except KeyboardInterrupt:
        sys.exit(130)
