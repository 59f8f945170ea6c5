"""What several tests are given: the handshake, the program that is kept, and how they end where they can't do their work."""

import os
import subprocess
import sys
import traceback

ROOT = os.path.dirname(os.path.dirname(os.path.abspath(__file__)))
OWN_FAILURE = 70

HANDSHAKE = """free a, b, net;
type Msg = (m: Un, n: Nonce [end (a, b, m)]);
process new (k: Key(Msg)); (
  inp net (q: Un); new (m: Un); begin (a, b, m);
  cast q is (p: Nonce [end (a, b, m)]); out net {(m, p)}k
| new (n: Un); out net n; inp net (c: Un);
  decrypt c is {x: Msg}k; split x is (m: Un, p: Nonce [end (a, b, m)]);
  check n is p; end (a, b, m); stop)
"""


def kept():
    """The build without proofs, which is made where it isn't there."""
    made = subprocess.run([f"{ROOT}/tools/keep.py", "cryptyc"], stdout=subprocess.PIPE, text=True)
    if made.returncode:
        raise OSError("there is no program to run")
    return made.stdout.strip()


def end_with(main):
    """Ends with the status of `main`, or with one of its own where that fails."""
    try:
        sys.exit(main())
    except Exception:
        traceback.print_exc()
        sys.exit(OWN_FAILURE)
