#!/usr/bin/env python3
"""Makes the completion of futoncrane's words for a shell, from the options of its commands.

usage: build/completions.py bash|zsh
"""
import importlib
import os
import sys

sys.dont_write_bytecode = True
sys.path.insert(0, os.path.dirname(os.path.dirname(os.path.abspath(__file__))))

from futoncrane.main import COMMANDS  # noqa: E402

FOLDERS, FILES = ("DIR",), ("FILE", "PREFIX", "LIST")

BASH = """# shellcheck shell=bash
# Completes the words of futoncrane in bash.

_futoncrane() {
    local word=${COMP_WORDS[COMP_CWORD]} before=${COMP_WORDS[COMP_CWORD - 1]} command='' options=''
    COMPREPLY=()
    if [ "$COMP_CWORD" -gt 1 ]; then command=${COMP_WORDS[1]}; fi
    case $before in
        %s) return ;;
    esac
    case $command in
        '') options='%s --help --version' ;;
%s
    esac
    if [ -z "$command" ] || [[ $word == -* ]]; then
        mapfile -t COMPREPLY < <(compgen -W "$options" -- "$word")
    fi
}

complete -o default -F _futoncrane futoncrane"""

ZSH = """#compdef futoncrane
# Completes the words of futoncrane in zsh.

_futoncrane() {
    local -a commands
    commands=(
%s
    )
    if (( CURRENT == 2 )); then
        _describe command commands
        _arguments '--help[shows the help]' '--version[shows the version]'
        return
    fi
    local command=$words[2]
    shift words
    (( CURRENT-- ))
    case $command in
%s
    esac
}

_futoncrane "$@\""""


def options_of(command):
    return [it for it in importlib.import_module("futoncrane.commands." + command).OPTIONS if it.names]


def bash():
    """The completion for bash: files are completed by bash itself."""
    values = sorted({name for it in COMMANDS for option in options_of(it) for name in option.names if option.value and option.value not in FOLDERS + FILES})
    lines = ["        %s) options='%s --help' ;;" % (it, " ".join(name for option in options_of(it) for name in option.names)) for it in COMMANDS]
    return BASH % (" | ".join(values), " ".join(COMMANDS), "\n".join(lines))


def quoted(text):
    """A word of zsh."""
    return "'%s'" % text.replace("'", "'\\''")


def argument(option):
    """An option as zsh's _arguments takes it."""
    text = option.text.split(":")[0].split("(")[0].strip().replace("[", "(").replace("]", ")")
    value = "" if option.value is None else ":%s:%s" % (
        option.value.lower(), "_files -/" if option.value in FOLDERS else "_files" if option.value in FILES else "")
    if len(option.names) == 1:
        return quoted("%s[%s]%s" % (option.names[0], text, value))
    return "'(%s)'{%s}%s" % (" ".join(option.names), ",".join(option.names), quoted("[%s]%s" % (text, value)))


def zsh():
    """The completion for zsh, with what each option means."""
    commands = ["        " + quoted("%s:%s" % it) for it in COMMANDS.items()]
    lines = []
    for it in COMMANDS:
        words = [argument(option) for option in options_of(it)] + [quoted("--help[shows the help]"), quoted("*:file:_files")]
        lines += ["        %s)" % it, "            _arguments " + " \\\n                ".join(words), "            ;;"]
    return ZSH % ("\n".join(commands), "\n".join(lines))


if __name__ == "__main__":
    print({"bash": bash, "zsh": zsh}[sys.argv[1]]())
