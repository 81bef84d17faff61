"""Runs a command of this project: `python3 FOLDER COMMAND ..`, where COMMAND is one of those below, or its path.

Python looks for modules in the folder that it runs, so the packages beside this file are found, in a checkout and where
`./build --install` installs them. The launchers in bin/ do this; where pip installs the project, it makes launchers of its own.
"""
import importlib
import os
import sys

# As pyproject.toml lists them.
COMMANDS = {"sfq-import": "sfq.imports", "sfq-export": "sfq.exports", "sfq-schema": "sfq.schemas", "sfq-shell": "sfq.shell", "sfq-ask": "sfq.ask", "sfq-audit": "sfq_audit.command", "sfq-scale": "sfq_scale.command"}

if __name__ == "__main__":
    # From here on the command is the program that runs: it looks for others beside itself.
    del sys.argv[0]
    sys.exit(importlib.import_module(COMMANDS[os.path.basename(sys.argv[0])]).main())
