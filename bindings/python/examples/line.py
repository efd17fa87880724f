"""Sends messages over a pipe on which a write breaks off and bytes are changed, and prints what is heard."""
import os

import frames


class Breaking:
    """A line that fails once, after so many bytes."""

    def __init__(self, descriptor):
        self.descriptor, self.left = descriptor, None

    def write(self, out):
        if self.left is not None:
            out, self.left = out[: self.left], None
            os.write(self.descriptor, out)
            raise OSError("the line failed")
        return os.write(self.descriptor, out)

    def flush(self):
        pass


def main():
    reader, writer = os.pipe()
    line, sender = Breaking(writer), frames.Sender()
    for text in ["first", "pay\0me", "behind it", "", "longer than the other side has room for", "last"]:
        if text == "pay\0me":
            line.left = 5  # behind `pay`, which as a plain message would be heard
        try:
            sender.write(line, frames.seal(text.encode()))
        except OSError as error:
            print(f"{error}: not sent")
    out = bytearray(sender.send(frames.seal(b"a letter is changed")))
    out[5] ^= 32
    os.write(writer, out)
    sender.sent()
    os.write(writer, sender.send(b"never ends")[:4])
    os.close(writer)
    for event in frames.listen(os.fdopen(reader, "rb"), limit=32):
        if isinstance(event, bytes):
            try:
                print(frames.unseal(event))
            except frames.Invalid as error:
                print(f"{error}: {len(event)} bytes")
        else:
            print(event)


main()
