"""completions: what bash, zsh and fish offer after `mps`, of what --help says."""
from manual import brief

BASH = '''# mps: what bash offers after mps
_mps() {{
    local cur=${{COMP_WORDS[COMP_CWORD]}} prev=${{COMP_WORDS[COMP_CWORD-1]}} order= at=1 words=
    while [ $at -lt $COMP_CWORD ]; do
        case ${{COMP_WORDS[at]}} in -v | --verbose) ;; *) order=${{COMP_WORDS[at]}}; break ;; esac
        at=$((at + 1))
    done
    case "$order $prev" in
{values}    esac
    case $order in
{options}    esac
    if [[ -z $order || $cur == -* || $words == *' ' && $prev == "$order" ]]; then
        COMPREPLY=($(compgen -W "$words" -- "$cur"))
    else
        compopt -o filenames
        COMPREPLY=($(compgen -f -- "$cur"))
    fi
}}
complete -F _mps mps
'''
ZSH = '''#compdef mps
# what zsh offers after mps
local -a orders
orders=(
{orders})
_arguments -C '(-v --verbose)'{{-v,--verbose}}'[tells more]' '--help[shows the help]' '--version[shows the version]' \\
    '1:order:->order' '*::words:->words'
case $state in
order) _describe order orders ;;
words)
    case $words[1] in
{options}    esac ;;
esac
'''
FISH = '''# what fish offers after mps
complete -c mps -n __fish_use_subcommand -f
complete -c mps -n __fish_use_subcommand -s v -l verbose -d 'tells more'
complete -c mps -n __fish_use_subcommand -l help -d 'shows the help'
complete -c mps -n __fish_use_subcommand -l version -d 'shows the version'
'''


def takes_folder(option):
    """Whether the option's value is a folder."""
    return option.text.startswith("A folder")


def bash(orders):
    """The file for bash."""
    values, options = [], [f"    '') words='--help --version -v --verbose {' '.join(order.name for order in orders)}' ;;\n"]
    for order in orders:
        for option in order.options:
            offered = "-d" if takes_folder(option) else f"-W '{' '.join(option.choices)}'"
            if option.value or option.choices:
                needed = "[[ $cur == -* ]] || " if option.is_optional else ""
                offered = f"{{ COMPREPLY=($(compgen {offered} -- \"$cur\")); return; }}"
                values.append(f"    '{order.name} {option.names[-1]}') {needed}{offered} ;;\n")
        words = [*order.first, *(name for option in order.options for name in option.names)]
        # a space at the end: the first word is one of these, and no file
        options.append(f"    {order.name}) words='{' '.join(words)}{' ' if order.first else ''}' ;;\n")
    return BASH.format(values="".join(values), options="".join(options))


def zsh_text(text):
    """The text as zsh's _arguments has it between brackets, in a word in single quotes."""
    for mark in "\\[]:":
        text = text.replace(mark, f"\\{mark}")
    return text.replace("'", "'\\''")


def zsh(orders):
    """The file for zsh."""
    options = []
    for order in orders:
        words = []
        for option in order.options:
            names = f"'({' '.join(option.names)})'{{{','.join(option.names)}}}" if len(option.names) > 1 else option.names[0]
            offered = f"({' '.join(option.choices)})" if option.choices else "_files -/" if takes_folder(option) else ""
            colons = "::" if option.is_optional else ":"
            value = f"{colons}{option.value or 'word'}:{offered}" if option.choices or option.value else ""
            words.append(f"{names}'[{zsh_text(brief(option.text))}]{value}'")
        words += [f"'1:word:({' '.join(order.first)})'"] if order.first else []
        options.append(f"    {order.name}) _arguments {' '.join(words)} '*:file:_files' ;;\n")
    described = "".join(f"    '{order.name}:{zsh_text(brief(order.text))}'\n" for order in orders)
    return ZSH.format(orders=described, options="".join(options))


def fish_text(text):
    """The text as a word of fish."""
    return "'" + text.replace("\\", "\\\\").replace("'", "\\'") + "'"


def fish(orders):
    """The file for fish."""
    lines = [FISH]
    for order in orders:
        lines.append(f"complete -c mps -n __fish_use_subcommand -a {order.name} -d {fish_text(brief(order.text))}\n")
        begin = f"complete -c mps -n '__fish_seen_subcommand_from {order.name}'"
        if order.first:
            lines.append(f"{begin} -a '{' '.join(order.first)}'\n")
        for option in order.options:
            names = " ".join(f"-l {name[2:]}" if name.startswith("--") else f"-s {name[1:]}" for name in option.names)
            value = " -r" if takes_folder(option) else " -x" if option.value else ""
            value += f" -a '{' '.join(option.choices)}'" if option.choices else ""
            lines.append(f"{begin} {names}{value} -d {fish_text(brief(option.text))}\n")
    return "".join(lines)
