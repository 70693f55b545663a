"""What all scripts share: the repository, the built programs in it, their runs, and the words of a script."""

import argparse
import contextlib
import os
import pathlib
import signal
import subprocess
import sys

TOP = pathlib.Path(__file__).resolve().parent.parent


def path_of(name):
    """Where the program of this name is built."""
    return TOP / "crates" / name / "out" / name


PROGRAM = path_of("abstract_bft")


def need(*names, by="./build"):
    """Ends the script if one of these programs isn't built."""
    missing = [name for name in names if not os.access(path_of(name), os.X_OK)]
    if missing:
        sys.exit(f"not built: {', '.join(missing)}; {by} builds what is missing")


def ran(words, given=b"", program=PROGRAM, seconds=600, folder=None, **environment):
    """The status of a program that runs in this folder, and what it writes and says."""
    every = {**os.environ, **environment}
    done = subprocess.run([program, *words], input=given, capture_output=True, env=every, timeout=seconds, cwd=folder)
    return done.returncode, done.stdout, done.stderr


def parser_of(doc):
    """A parser of a script's words. The script's docstring, whose second paragraph is the usage, is its help."""
    title, usage, text = doc.split("\n\n", 2)
    help_form = argparse.RawDescriptionHelpFormatter
    return argparse.ArgumentParser(usage=usage.removeprefix("usage: "), description=f"{title}\n\n{text}", formatter_class=help_form)


def end_in_order():
    """Lets SIGTERM and SIGHUP end the script as a return does, so that it ends what it started and removes what it wrote."""
    for number in (signal.SIGTERM, signal.SIGHUP):
        signal.signal(number, lambda signalled, _: sys.exit(128 + signalled))


def run_tool(words, folder):
    """The status of a tool. The tool and all that it started end with the script."""
    tool = subprocess.Popen(words, cwd=folder, start_new_session=True)
    try:
        return tool.wait()
    finally:
        for number in (signal.SIGINT, signal.SIGTERM, signal.SIGKILL):
            if tool.returncode is None:
                os.killpg(tool.pid, number)
                with contextlib.suppress(subprocess.TimeoutExpired):
                    tool.wait(5)
