"""Says of each document on standard input whether expat takes it as XML, with MathML's math as its root.

A document is its length in decimal, a line feed, and as many bytes. The answer is a line for each: ok, or what is wrong.
"""

import sys
from xml.parsers import expat

MATHML = "http://www.w3.org/1998/Math/MathML"


def documents(stream):
    while line := stream.readline():
        length = int(line)
        document = stream.read(length)
        if len(document) != length:
            sys.exit("check.py: the last document is cut short")
        yield document


def answer(document):
    names = []
    # a name comes with its namespace and a space before it
    parser = expat.ParserCreate("UTF-8", " ")
    parser.StartElementHandler = lambda name, attributes: names.append(name)
    try:
        parser.Parse(document, True)
    except expat.ExpatError as error:
        return f"not well-formed: {error}"
    if names[0] != f"{MATHML} math":
        return f"the root is {names[0]!r}"
    strangers = [name for name in names if not name.startswith(f"{MATHML} ")]
    if strangers:
        return f"not MathML: {strangers[0]!r}"
    return "ok"


for document in documents(sys.stdin.buffer):
    print(answer(document))
