# PyYAML (`python.py yaml`) or ruamel.yaml (`python.py ruamel.yaml`) as a reader: for each `LENGTH\n` and text on standard input the event
# lines, or `!` and a message, and then a line `.`.
import importlib
import sys

reader = importlib.import_module(sys.argv[1])
ESCAPES = {"\\": "\\\\", "\n": "\\n", "\r": "\\r", "\t": "\\t", "\b": "\\b", "\0": "\\0"}


def parse(text):
    if sys.argv[1] == "yaml":
        return reader.parse(text, Loader=reader.SafeLoader)
    return reader.YAML(typ="safe", pure=True).parse(text)


def properties(event):
    anchor = " &" + event.anchor if event.anchor else ""
    return anchor + (" <%s>" % event.tag if event.tag else "")


def lines(text):
    for event in parse(text):
        name = type(event).__name__
        if name == "DocumentStartEvent":
            yield "+DOC"
        elif name == "DocumentEndEvent":
            yield "-DOC"
        elif name == "MappingStartEvent":
            yield "+MAP" + properties(event)
        elif name == "MappingEndEvent":
            yield "-MAP"
        elif name == "SequenceStartEvent":
            yield "+SEQ" + properties(event)
        elif name == "SequenceEndEvent":
            yield "-SEQ"
        elif name == "AliasEvent":
            yield "=ALI *" + event.anchor
        elif name == "ScalarEvent":
            value = "".join(ESCAPES.get(c, c) for c in event.value)
            yield "=VAL" + properties(event) + " " + (event.style or ":") + value


while True:
    head = sys.stdin.buffer.readline()
    if not head:
        break
    text = sys.stdin.buffer.read(int(head))
    try:
        said = list(lines(text))
    except Exception as error:
        said = ["!" + type(error).__name__]
    sys.stdout.buffer.write("\n".join(said + [".", ""]).encode("utf-8", "surrogatepass"))
    sys.stdout.buffer.flush()
