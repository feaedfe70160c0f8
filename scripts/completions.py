"""Completion for bash and zsh, made from the table of `mpw help` (crates/mpw_help) and from the help that the programs print.

`bash` and `zsh` return the text of a file that completes `mpw` and the tools. A value that is a file is completed as one.
"""
import help_tables

HEAD = "# Completion of mpw and its tools. It is made by `mpw install`; don't change it.\n"
BASH_TOOL = """
_{name}() {{
    _mpw_of '{files}' '{values}' '{options}' '{words}' "$2" "$3"
}}
complete -o default -F _{name} {command}
"""
BASH_COMMON = """
# Completes one word: the value of an option that takes a file or another value, an option, or a word. Files are the default.
_mpw_of() {
    COMPREPLY=()
    case " $1 " in *" $6 "*) return ;; esac
    case " $2 " in *" $6 "*) compopt +o default; return ;; esac
    case $5 in
        -*) COMPREPLY=($(compgen -W "$3" -- "$5")) ;;
        *) [ -z "$4" ] || COMPREPLY=($(compgen -W "$4" -- "$5")) ;;
    esac
}
"""
BASH_MPW = """
_mpw() {{
    if [ "$COMP_CWORD" = 1 ]; then
        COMPREPLY=($(compgen -W '{commands}' -- "$2"))
        return
    fi
    case ${{COMP_WORDS[1]}} in
{cases}        *) COMPREPLY=() ;;
    esac
}}
complete -o default -F _mpw mpw
"""


def unique(words):
    return list(dict.fromkeys(words))


def help_words():
    """The words that `mpw help` explains: requests, denials, codes and commands."""
    return unique(it["word"] for _, listed in help_tables.tables() for it in listed)


def requests():
    """The first words of requests."""
    return unique(it["word"] for _, listed in help_tables.tables() for it in listed if it["kind"] == "Request")


def names(options):
    return " ".join(name for it in options for name in it.names)


def for_bash(found, words):
    """What the function of bash is given: options with a file, those with another value, all options, and words."""
    options = found.options
    with_file = [it for it in options if it.is_file]
    others = [it for it in options if it.value and not it.is_file]
    return {"files": names(with_file), "values": names(others), "options": names(options), "words": " ".join(words)}


def words_after(command):
    """The words that may follow a command or a tool."""
    return {"help": help_words(), "store": ["check"], "mpw-ask": requests()}.get(command, [])


def bash(commands, tools):
    """The file for bash. `commands` and `tools` have the help of each by its name."""
    cases = ""
    for name in commands:
        given = " ".join(f"'{it}'" for it in for_bash(commands[name], words_after(name)).values())
        cases += f'        {name}) _mpw_of {given} "$2" "$3" ;;\n'
    cases += f"        help) _mpw_of '' '' '--help' '{' '.join(help_words())}' \"$2\" \"$3\" ;;\n"
    text = HEAD + BASH_COMMON + BASH_MPW.format(commands=" ".join([*commands, "help", "--help", "--version"]), cases=cases)
    for name, found in tools.items():
        text += BASH_TOOL.format(name=name.replace("-", "_"), command=name, **for_bash(found, words_after(name)))
    return text


def quoted(text):
    """A text between quotes of zsh."""
    return "'" + text.replace("'", "'\\''") + "'"


def spec(option):
    """What `_arguments` is given for an option."""
    text = option.help.replace("\\", "\\\\").replace("[", "\\[").replace("]", "\\]").replace(":", "\\:")
    value = f":{option.value.replace(':', '')}:{'_files' if option.is_file else ' '}" if option.value else ""
    if len(option.names) == 1:
        return quoted(f"*{option.names[0]}[{text}]{value}")
    return f"'({' '.join(option.names)})'{{{','.join(option.names)}}}{quoted(f'[{text}]{value}')}"


def arguments(found, words):
    """A call of `_arguments` for a command or a tool."""
    rest = f"*:word:({' '.join(words)})" if words else "*:file:_files"
    return " ".join(["_arguments", *(spec(it) for it in found.options), quoted(rest)])


def zsh(commands, tools):
    """The file for zsh. `commands` and `tools` have the help of each by its name."""
    listed = " ".join(quoted(f"{name}:{it.about[0][0]}".replace("`", "")) for name, it in commands.items())
    text = f"#compdef mpw {' '.join(tools)}\n{HEAD}\n_mpw_commands() {{\n    local -a commands\n"
    text += f"    commands=({listed} 'help:explains a request, a denial, a code or a command')\n    _describe command commands\n}}\n\ncase $service in\n"
    for name, found in tools.items():
        text += f"    {name}) {arguments(found, words_after(name))} ;;\n"
    text += "    mpw)\n        if (( CURRENT == 2 )); then\n            _mpw_commands\n            return\n        fi\n"
    text += "        local command=$words[2]\n        shift words\n        (( CURRENT-- ))\n        case $command in\n"
    for name, found in commands.items():
        text += f"            {name}) {arguments(found, words_after(name))} ;;\n"
    text += f"            help) _arguments '*:word:({' '.join(help_words())})' ;;\n        esac\n        ;;\nesac\n"
    return text
