"""Completions of bash and zsh, made of the parser so that they name all that it takes."""

from __future__ import annotations

import argparse

from plsdesk.schemes import SCHEMES

_BASH = """_plsdesk() {{
  local word=${{COMP_WORDS[COMP_CWORD]}} command=${{COMP_WORDS[1]}}
  if [ "$COMP_CWORD" -eq 1 ]; then
    COMPREPLY=($(compgen -W "{commands}" -- "$word"))
    return
  fi
  case $command in
{cases}
  esac
  case $word in
    -*) COMPREPLY=($(compgen -W "$options" -- "$word")) ;;
    *) COMPREPLY=($(compgen -W "$words" -- "$word") $(compgen -f -- "$word")) ;;
  esac
}}
complete -o filenames -F _plsdesk plsdesk
"""
_ZSH = """#compdef plsdesk
_plsdesk() {{
  if (( CURRENT == 2 )); then
    compadd -- {commands}
    return
  fi
  case $words[2] in
{cases}
  esac
  _files
}}
compdef _plsdesk plsdesk
"""


def completions_text(shell: str, top: argparse.ArgumentParser) -> str:
    """The text that a shell reads, as in `source <(plsdesk completions bash)`."""
    commands = _commands(top)
    cases: list[str] = []
    for name, command in commands.items():
        options = " ".join(_options(command))
        words = " ".join(_words(command))
        if shell == "bash":
            cases.append(f'    {name}) options="{options}" words="{words}" ;;')
        else:
            cases.append(f"    {name}) compadd -- {options} {words} ;;".replace("  ;;", " ;;"))
    template = _BASH if shell == "bash" else _ZSH
    return template.format(commands=" ".join(commands), cases="\n".join(cases))


def _commands(top: argparse.ArgumentParser) -> dict[str, argparse.ArgumentParser]:
    for action in top._actions:
        if isinstance(action, argparse._SubParsersAction):
            return dict(action.choices)
    return {}


def _options(command: argparse.ArgumentParser) -> list[str]:
    return [option for action in command._actions for option in action.option_strings]


def _words(command: argparse.ArgumentParser) -> list[str]:
    """The words that may stand in a command besides files: schemes, formats, kinds of trees, shells."""
    words = [choice for action in command._actions for choice in action.choices or ()]
    return words + (list(SCHEMES) if any(action.dest == "scheme" for action in command._actions) else [])
