"""Sends values of a device's declared types over a pipe on which a write breaks off, and prints what is heard, by `wire`."""
import os
import threading

from frames import typed

DECLARATIONS = os.path.join(os.path.dirname(os.path.abspath(__file__)), "messages.rs")


def talk(writer):
    with os.fdopen(writer, "wb") as line:
        line.write(typed.write(DECLARATIONS, "Reading", [{"level": -21, "light": {"Lit": 5}}, {"level": 300, "light": "Dark"}]))
        line.write(typed.write(DECLARATIONS, "Reading", [{"level": 7, "light": "Dark"}])[:3])  # it breaks off
        line.write(typed.write(DECLARATIONS, "Reading", [{"level": 8, "light": "Dark"}]))


def main():
    reader, writer = os.pipe()
    talking = threading.Thread(target=talk, args=(writer,))
    talking.start()
    with typed.TypedReceiver(DECLARATIONS, "Reading") as receiver:
        for answer in receiver.listen(os.fdopen(reader, "rb")):
            print(answer)
    talking.join()


main()
