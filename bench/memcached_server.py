"""A memcached of one's own on loopback, and what the scripts that compare with it share (Debian's package memcached 1.6.18)."""
import ast
import contextlib
import re
import socket
import subprocess
import threading
import time

PORT = 21711

# A literal of bytes in a table of a test.
LITERAL = r'b"(?:[^"\\]|\\[\s\S])*"'


@contextlib.contextmanager
def server(threads=1):
    """A new memcached with so many threads, which ends with the block."""
    words = ["-u", "nobody", "-l", "127.0.0.1", "-p", str(PORT), "-U", "0", "-t", str(threads), "-m", "1024"]
    process = subprocess.Popen(["memcached", *words], stderr=subprocess.DEVNULL)
    try:
        for _ in range(100):
            with contextlib.suppress(ConnectionRefusedError), socket.create_connection(("127.0.0.1", PORT), timeout=2):
                break
            time.sleep(0.02)
        yield process
    finally:
        process.terminate()
        process.wait()


def ask(text):
    """What the server answers to the text alone, on a connection of its own; the text is sent while replies are read."""
    with socket.create_connection(("127.0.0.1", PORT), timeout=20) as connection:
        sender = threading.Thread(target=send, args=(connection, text))
        sender.start()
        pieces = []
        while piece := connection.recv(1 << 20):
            pieces.append(piece)
        sender.join()
    return b"".join(pieces)


def send(connection, text):
    """Sends the text, and says that nothing follows."""
    connection.sendall(text)
    connection.shutdown(socket.SHUT_WR)


def bytes_of(literal):
    """The bytes of a literal, which goes on behind the white space of its next line where a line ends with a backslash."""
    return ast.literal_eval(re.sub(r"\\\n\s*", "", literal))


def compare(kind, cases, answer):
    """Prints each text to which the answer is another than the table's, and how many texts there are."""
    asked = differ = 0
    for text, wanted in cases:
        found, reply = answer(text)
        asked += 1
        if found != wanted:
            differ += 1
            print(f"{text!r}:\n  {wanted!r} in the table\n  {reply!r} from memcached")
    print(f"{asked} {kind}, {differ} answered otherwise")
