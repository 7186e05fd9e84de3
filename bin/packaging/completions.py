"""Completions for bash and zsh, made of what the program's help says."""

BASH = '''# bash completion for lkb
_lkb() {
    local current=$2 before=$3 command=${COMP_WORDS[1]}
    COMPREPLY=()
    if [ "$COMP_CWORD" = 1 ]; then
        mapfile -t COMPREPLY < <(compgen -W "@commands@" -- "$current")
        return
    fi
    case $before in
        --settings) mapfile -t COMPREPLY < <(compgen -f -- "$current"); return ;;
        @valued@) return ;;
    esac
    case $current in
        -*) mapfile -t COMPREPLY < <(compgen -W "@options@" -- "$current"); return ;;
    esac
    case $command in
        @grammars@) mapfile -t COMPREPLY < <(compgen -f -X '!*.tdl' -- "$current"; compgen -d -- "$current") ;;
        @others@) mapfile -t COMPREPLY < <(compgen -f -- "$current") ;;
    esac
}
complete -o filenames -F _lkb lkb
'''

ZSH = '''#compdef lkb
local -a commands options
commands=(
@commands@
)
options=(
@options@
)
if (( CURRENT == 2 )); then
    _describe command commands
else
    _arguments $options '*:grammar:_files -g "*.tdl"'
fi
'''


def bash(help_page):
    words = [option.split()[0] for option, _ in help_page.options]
    valued = [option.split()[0] for option, _ in help_page.options if len(option.split()) > 1 and option.split()[0] != "--settings"]
    kinds = [words.split() for words, _ in help_page.commands if not words.startswith("-")]
    others = [said[0] for said in kinds if said[-1] in ("PROFILE", "RULES")]
    grammars = [said[0] for said in kinds if "GRAMMAR" in said and said[0] not in others]
    filled = {"commands": " ".join(help_page.command_words()), "valued": " | ".join(valued), "options": " ".join(words)}
    return fill(BASH, filled | {"grammars": " | ".join(grammars), "others": " | ".join(others) or "-"})


def zsh(help_page):
    commands = [f"    '{words.split()[0]}:{plain(text)}'" for words, text in help_page.commands if not words.startswith("-")]
    options = []
    for words, text in help_page.options:
        name, *value = words.split()
        action = ":file:_files" if name == "--settings" else f":{value[0].lower()}: " if value else ""
        options.append(f"    '{name}[{plain(text)}]{action}'")
    return fill(ZSH, {"commands": "\n".join(commands), "options": "\n".join(options)})


def plain(text):
    """A text within single quotes, without what zsh would take for its own."""
    return text.replace("'", "'\\''").replace(":", "\\:").replace("[", "(").replace("]", ")")


def fill(text, filled):
    for name, said in filled.items():
        text = text.replace(f"@{name}@", said)
    return text
