"""`make page`: a hub of the example register with the orders of the example day, in a temporary folder, and a proxy in front of it that
serves the page. Only for trying: it is deleted in the end. `python3 try.py PROGRAM PORT [NOTE]`; the note is printed last. `python3
try.py --port PORT` says why this port cannot be taken, if it cannot."""
import os
import signal
import socket
import subprocess
import sys
import tempfile
import threading

from proxy import Proxy

EXAMPLES = os.path.dirname(os.path.dirname(os.path.abspath(__file__)))
SUPPLIERS = os.path.join(EXAMPLES, "page", "suppliers.csv")
RETAILER, RETAIL_KEY = "5412345000013", "retail-key"
SAID = """The page is at {address}  (^C ends it)

  This is for trying alone: without TLS, on this machine only, and all of it is thrown away in the end.

  sign in as                 GLN            key
  the retailer               5412345000013  retail-key
  supplier Alpha             4012345500004  alpha-key-1   (company prefix 40123455)
  supplier Beta              8712345000004  beta-key-1    (company prefix 8712345)

  Alpha and Beta each have an order. Once Alpha has despatched two pallets and Beta one, with the SSCC that the page proposes,
  upload the files of examples/day/7-receipts as the retailer."""


def free_port():
    with socket.socket() as one:
        one.bind(("127.0.0.1", 0))
        return one.getsockname()[1]


def founded(program, folder):
    """A new hub's database file, with the orders of the example day."""
    file, key = os.path.join(folder, "hub.db"), os.path.join(folder, "retail.key")
    with open(key, "w", encoding="ascii") as keys:
        keys.write(RETAIL_KEY)
    for words in (
        ["init", "--register", os.path.join(EXAMPLES, "register.toml"), "--db", file],
        ["import", "--db", file, "--as", RETAILER, "--key-file", key, "--folder", os.path.join(EXAMPLES, "day", "1-orders")],
    ):
        subprocess.run([program, *words], check=True, stdout=subprocess.DEVNULL)
    return file


def serving(program, file):
    """The hub, once it listens, and its port."""
    port = free_port()
    child = subprocess.Popen([program, "serve", "--db", file, "--port", str(port), "--count", "1000000"], stdout=subprocess.PIPE)
    if not child.stdout.readline().startswith(b"listening"):
        raise OSError("the hub does not listen")
    # the hub prints a line for each connection; if nobody read them it would wait once the pipe is full
    threading.Thread(target=child.stdout.read, daemon=True).start()
    return child, port


def port_fault(port):
    """Why the page cannot be served on this port, or nothing."""
    with socket.socket() as one:
        one.setsockopt(socket.SOL_SOCKET, socket.SO_REUSEADDR, 1)
        try:
            one.bind(("127.0.0.1", port))
        except OSError as error:
            return f"port {port}: {error.strerror}. PAGE_PORT={port + 1} takes another"
    return None


def main(program, port, *notes):
    with tempfile.TemporaryDirectory() as folder:
        child, hub_port = serving(program, founded(program, folder))
        try:
            with Proxy(port, hub_port, suppliers=SUPPLIERS, program=program) as proxy:
                print(SAID.format(address=proxy.address), flush=True)
                proxy.serve_forever()
        except KeyboardInterrupt:
            print()
        finally:
            child.terminate()
            child.wait()
            print(*notes, sep="\n")


if __name__ == "__main__":
    if sys.argv[1] == "--port":
        sys.exit(port_fault(int(sys.argv[2])))
    # SIGTERM is handled like ^C, so that the hub ends too; in the background of a shell ^C would not arrive
    for told in (signal.SIGINT, signal.SIGTERM):
        signal.signal(told, signal.default_int_handler)
    main(os.path.abspath(sys.argv[1]), int(sys.argv[2]), *sys.argv[3:])
