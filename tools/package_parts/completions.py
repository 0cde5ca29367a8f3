"""Completions of the programs' words, for bash and zsh, by the words of words.py."""
from package_parts.words import COMMAND, ENDINGS, FLAG, WORDS, options_of

BASH = r"""# Completes the words of @PROGRAM@ in bash.
@NAME@() {
    local current=${COMP_WORDS[COMP_CWORD]} before=${COMP_WORDS[COMP_CWORD - 1]} command=@BEGUN@ place=0 at word kind='' value='' ended='' file
    # Readline takes `--option=value` for three words.
    if [ "$current" = = ]; then
        current=''
    elif [ "$before" = = ]; then
        before=${COMP_WORDS[COMP_CWORD - 2]}
    fi
    for ((at = 1; at < COMP_CWORD; at++)); do
        word=${COMP_WORDS[at]}
        case $ended:$value:$command:$word in
        *:*:*:=) ;;
        :yes:*) value='' ;;
@VALUED@
        :*:*:--) ended=yes place=$((place + 1)) ;;
        :*:*:-*) ;;
        *::-:*) command=$word ;;
        *) place=$((place + 1)) ;;
        esac
    done
    [ -z "$value" ] || place=value
    COMPREPLY=()
    case $command:$place:$before:$current in
@KINDS@
    esac
    case $kind in
    '') ;;
    words\ *) mapfile -t COMPREPLY < <(compgen -W "${kind#words }" -- "$current") ;;
    command) mapfile -t COMPREPLY < <(compgen -c -- "$current") ;;
    *)
        compopt -o filenames 2> /dev/null
        while IFS= read -r file; do
            if [ -d "$file" ] || [ "$kind" = files ] || [[ " ${kind#files } " == *" ${file##*.} "* ]]; then
                COMPREPLY+=("$file")
            fi
        done < <(compgen -f -- "$current")
        ;;
    esac
}
complete -F @NAME@ @PROGRAM@
"""


def bash_kind(kind):
    if isinstance(kind, tuple):
        return f"words {' '.join(kind)}"
    if kind is None:
        return ""
    return "command" if kind == COMMAND else " ".join(["files", *ENDINGS[kind]])


def bash(program):
    """Returns the completion of a program in bash."""
    commands = WORDS[program]
    valued, kinds = [], []
    for command, (_, places) in commands.items():
        taking = {word: kind for word, kind in options_of(program, command).items() if kind != FLAG}
        if taking:
            valued.append(f"        {'|'.join(f'::{command}:{word}' for word in taking)}) value=yes ;;")
        kinds += [f"    {command}:value:{word}:*) kind='{bash_kind(kind)}' ;;" for word, kind in taking.items()]
    for command, (_, places) in commands.items():
        # Behind `--` words are no options.
        behind = [place for place, (name, _) in enumerate(places) if name == "--"]
        if behind:
            kinds.append(f"    {command}:{behind[0] + 1}:*) kind='command' ;;")
            kinds += [f"    {command}:[{behind[0] + 2}-9]:*) kind='files' ;;"]
        kinds.append(f"    {command}:[0-9]*:*:-*) kind='words {' '.join([*options_of(program, command), *(['--'] if behind else [])])}' ;;")
        for place, (name, kind) in enumerate(places[: behind[0] + 1] if behind else places):
            pattern = "*" if name.endswith("...") else place
            kinds.append(f"    {command}:{pattern}:*) kind='{bash_kind(kind)}' ;;")
    if "" not in commands:
        kinds.append(f"    -:0:*) kind='words {' '.join([*commands, 'help', '--help'])}' ;;")
    text = BASH.replace("@PROGRAM@", program).replace("@NAME@", "_" + program.replace("-", "_"))
    text = text.replace("@BEGUN@", "''" if "" in commands else "-")
    return text.replace("@VALUED@\n", "".join(f"{line}\n" for line in valued)).replace("@KINDS@", "\n".join(kinds))


def zsh_kind(kind):
    if isinstance(kind, tuple):
        return f"({' '.join(kind)})"
    if kind is None:
        return " "
    endings = ENDINGS.get(kind, ())
    if not endings:
        return "_files"
    # One word in parentheses at the end would be zsh's qualifiers.
    pattern = endings[0] if len(endings) == 1 else f"({'|'.join(endings)})"
    return f'_files -g "*.{pattern}"'


def zsh_arguments(program, command):
    """Returns what `_arguments` takes for a command."""
    made = []
    for word, kind in options_of(program, command).items():
        made.append(f"'{word}'" if kind == FLAG else f"'{word}=:value:{zsh_kind(kind)}'")
    for name, kind in WORDS[program][command][1]:
        if name == "--":
            return [*made, "'*:::command:_normal'"]
        made.append(f"'{'*' if name.endswith('...') else ''}:{name.rstrip('.')}:{zsh_kind(kind)}'")
    return made


def zsh(program):
    """Returns the completion of a program in zsh."""
    commands = WORDS[program]
    if "" in commands:
        return f"#compdef {program}\n_arguments {' '.join(zsh_arguments(program, ''))}\n"
    cases = "".join(f"    {command}) _arguments {' '.join(zsh_arguments(program, command))} ;;\n" for command in commands)
    words = " ".join([*commands, "help"])
    return f"#compdef {program}\nlocal context state line\ntypeset -A opt_args\n_arguments -C '--help' '1:command:({words})' '*::word:->words'\n[[ $state != words ]] || case $words[1] in\n{cases}esac\n"
