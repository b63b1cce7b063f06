"""`completion`: what a shell needs to complete commands and options."""
from __future__ import annotations

import argparse
from typing import Any

from .output import Output, Status

MORE = (
    "For bash: eval \"$(warpladle completion bash)\". For zsh the same with zsh, for fish: warpladle completion fish |"
    " source."
)
BASH = '''_warpladle() {
    local word="${COMP_WORDS[COMP_CWORD]}" command="${COMP_WORDS[1]}" words=
    if [ "$COMP_CWORD" -eq 1 ]; then
        COMPREPLY=($(compgen -W "%(commands)s --help --version" -- "$word"))
        return
    fi
    case $command in
%(cases)s
    esac
    case $word in
    -*) COMPREPLY=($(compgen -W "$words" -- "$word")) ;;
    *) COMPREPLY=($(compgen -f -- "$word")) ;;
    esac
}
complete -o filenames -F _warpladle warpladle
'''
ZSH = 'autoload -U +X bashcompinit && bashcompinit\n' + BASH
FISH = '''complete -c warpladle -n __fish_use_subcommand -f -a "%(commands)s"
%(cases)s
'''


def add_arguments(parser: argparse.ArgumentParser) -> None:
    """What it takes."""
    parser.add_argument('shell', choices=('bash', 'zsh', 'fish'))


def run(args: argparse.Namespace, output: Output) -> Status:
    """The script."""
    from . import COMMANDS

    given: dict[str, Any] = {'commands': ' '.join(COMMANDS)}
    options = {name: _options(name) for name in COMMANDS}
    if args.shell == 'fish':
        given['cases'] = '\n'.join(
            f'complete -c warpladle -n "__fish_seen_subcommand_from {name}" -l {option[2:]}'
            for name, found in options.items()
            for option in found
            if option.startswith('--')
        )
        print(FISH % given, end='')
        return Status.FINE
    given['cases'] = '\n'.join(f'    {name}) words="{" ".join(found)}" ;;' for name, found in options.items())
    print((BASH if args.shell == 'bash' else ZSH) % given, end='')
    return Status.FINE


def _options(name: str) -> list[str]:
    from . import parser_of

    return [option for action in parser_of(name)._actions for option in action.option_strings]
