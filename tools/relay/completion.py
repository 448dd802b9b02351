"""Completion for bash, made of the same arguments as the help; `./relay install` puts it where bash looks."""

from . import command

HEAD = """# Completion of relay for bash.
_relay() {
    local word=${COMP_WORDS[COMP_CWORD]}
    COMPREPLY=()
    case $COMP_CWORD:$word:${COMP_WORDS[1]} in
        1:*) COMPREPLY=($(compgen -W "%s --help" -- "$word")) ;;
"""
OPTIONS = """        *:-*:%s) COMPREPLY=($(compgen -W "%s" -- "$word")) ;;
"""
TAIL = """    esac
}
complete -o default -F _relay relay
"""


def script():
    """Subcommands first, then options; whatever else is written is a file's name, which bash completes itself."""
    modules = {name: module for name, module in command.subcommands().items()
               if not hasattr(module, "ONLY_IN_REPOSITORY")}
    _, parsers = command.parsers(modules)
    options = (OPTIONS % (name, " ".join(options_of(parser))) for name, parser in parsers.items())
    return HEAD % " ".join(modules) + "".join(options) + TAIL


def options_of(parser):
    return [action.option_strings[-1] for action in parser._actions if action.option_strings]
