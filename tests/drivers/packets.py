"""What the drivers of this folder share: the packets of gitprotocol-common(5), and the requests and answers of
gitattributes(5), "Long Running Filter Process". No driver of its own."""
import sys

source, sink = sys.stdin.buffer, sys.stdout.buffer


def packet():
    """The next payload; None is a flush. The end of the input ends the driver."""
    digits = source.read(4)
    if len(digits) < 4:
        sys.exit(0)
    length = int(digits, 16)
    return None if length == 0 else source.read(length - 4)


def until_flush():
    packets = []
    while (payload := packet()) is not None:
        packets.append(payload)
    return packets


def spelled(*lines):
    """Lines, and a flush."""
    return b"".join(b"%04x%s\n" % (len(line) + 5, line) for line in lines) + b"0000"


def spelled_content(content):
    pieces = (content[start : start + 65516] for start in range(0, len(content), 65516))
    return b"".join(b"%04x%s" % (len(piece) + 4, piece) for piece in pieces) + b"0000"


def write(text):
    sink.write(text)
    sink.flush()


def put(*lines):
    write(spelled(*lines))


def whole(content):
    """The answer that is this content."""
    return spelled(b"status=success") + spelled_content(content) + spelled()


def greet(*capabilities):
    until_flush()
    put(b"git-filter-server", b"version=2")
    until_flush()
    put(*[b"capability=" + capability for capability in capabilities])


def requests():
    """Each request: its keys, and its content; of a list there is none. Keys that it doesn't know don't matter."""
    while True:
        keys = dict(line.rstrip(b"\n").split(b"=", 1) for line in until_flush())
        yield keys, None if keys[b"command"] == b"list_available_blobs" else b"".join(until_flush())


def turned(content):
    """What the drivers here make of a content: its letters in the other case, after a line of the first argument, if there is
    one that isn't empty."""
    line = "".join(sys.argv[1:2]).encode()
    return (line + b"\n" if line else b"") + content.swapcase()
