#!/usr/bin/env python3
"""The fitting desk's tool: models and jobs as text, stored bytes, and answers in words. Python 3 and its standard library are enough.

    desk.py model TEXT                 writes the stored bytes of a model's text
    desk.py text BYTES [--names TEXT]  prints the text of stored bytes, with the names of another text if given
    desk.py job TEXT                   writes the bytes of a job's text
    desk.py explain [TEXT]             says in words each answer line on standard input, with the names of the job's text if given

Bytes and text go to standard output. What is wrong goes to standard error as FILE:LINE: WHAT, with exit status 1. model_text.py says what the text of
a model looks like, job_text.py that of a job.
"""
import argparse
import sys

from job_text import read_job, text_in, to_job_bytes
from model_text import TextError, made_names, read_text, write_text
from stored import Fault, from_bytes, to_bytes
from words import NotAnAnswer, explain


def model_command(options):
    model, _ = read_text(text_in(options.text), options.text)
    sys.stdout.buffer.write(to_bytes(model))


def names_for(model, path):
    """The names of the text at path, if they are as many as the model needs."""
    named, names = read_text(text_in(path), path)
    if (named.sizes, named.signature()) != (model.sizes, model.signature()):
        raise TextError(path, None, "names another number of elements in a type, or other relations, than the bytes hold")
    return names


def text_command(options):
    try:
        with open(options.bytes, "rb") as file:
            model = from_bytes(file.read())
    except OSError as wrong:
        raise TextError(options.bytes, None, f"can't be read: {wrong.strerror}") from None
    except Fault as fault:
        raise TextError(options.bytes, None, str(fault)) from None
    sys.stdout.write(write_text(model, names_for(model, options.names) if options.names else made_names(model)))


def job_command(options):
    sys.stdout.buffer.write(to_job_bytes(read_job(options.text), options.text))


def explain_command(options):
    job = read_job(options.text) if options.text else None
    for number, line in enumerate(sys.stdin, 1):
        try:
            print(explain(line.rstrip("\n"), job))
        except NotAnAnswer as wrong:
            raise TextError("standard input", number, str(wrong)) from None


def options_of(arguments):
    parser = argparse.ArgumentParser(description=__doc__, formatter_class=argparse.RawDescriptionHelpFormatter)
    commands = parser.add_subparsers(metavar="COMMAND", required=True)
    for name, run, source in (("model", model_command, "text"), ("text", text_command, "bytes"), ("job", job_command, "text"),
                              ("explain", explain_command, "text")):
        command = commands.add_parser(name)
        command.set_defaults(run=run)
        command.add_argument(source, metavar=source.upper(), nargs="?" if name == "explain" else None)
        if name == "text":
            command.add_argument("--names", metavar="TEXT")
    return parser.parse_args(arguments)


def main():
    options = options_of(sys.argv[1:])
    try:
        options.run(options)
    except TextError as wrong:
        sys.exit(str(wrong))


if __name__ == "__main__":
    main()
