"""What README.md and the manual show of the examples: files, and commands with what they print.

A block behind a paragraph that ends with the name of a file, as "`examples/first/beam.sh`:", is that file. A block that
begins with a command `$ cd examples/..` is run in a copy of the examples, by one shell: each line behind `$ ` is a command,
and the lines behind it are what it prints.
"""
import os
import re

from copies import ROOT, copied, done, read

DOCUMENTS = ["README.md", "docs/MANUAL.md"]
SHOWN_FILE = re.compile(r"`(examples/[^`\s]+)`:\n\n```\n(.*?)^```$", re.S | re.M)
SESSION = re.compile(r"^```\n(\$ cd examples/.*?)^```$", re.S | re.M)
COMMAND = re.compile(r"^\$ (.*)\n((?:(?!\$ ).*\n)*)", re.M)
END = "-- the end of a command --\n"


def text_of(document):
    return read(os.path.join(ROOT, document)).decode()


def shown_files():
    """Each file that a document shows, and its text there."""
    return [(document, *found) for document in DOCUMENTS for found in SHOWN_FILE.findall(text_of(document))]


def sessions():
    """The commands of each session of a document, and what they print there."""
    return [(document, COMMAND.findall(block)) for document in DOCUMENTS for block in SESSION.findall(text_of(document))]


def faults_of_shown_files():
    for document, name, text in shown_files():
        path = os.path.join(ROOT, name)
        if not os.path.exists(path) or read(path).decode() != text:
            yield f"{document} doesn't show {name} as it is"
    for document in {*DOCUMENTS} - {document for document, _ in sessions()}:
        yield f"{document} shows no commands over the examples"


def printed(program, commands):
    """What each command of a session prints."""
    script = "exec 2>&1\n" + "".join(f"{it}\nprintf '%s' '{END}'\n" for it in commands)
    with copied(program) as top:
        text = done(top, ".", ["sh", "-c", script]).stdout.decode(errors="replace")
    return text.split(END)


def faults_of_sessions(program):
    for document, session in sessions():
        found = printed(program, [command for command, _ in session])
        for (command, wanted), one in zip(session, found):
            if one != wanted:
                yield f"{document}: `{command}` prints {one!r}, and not {wanted!r}"
