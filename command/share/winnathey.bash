# bash completion for winnathey
_winnathey() {
    local word=${COMP_WORDS[COMP_CWORD]} before=${COMP_WORDS[COMP_CWORD - 1]}
    local subcommands='show why draw same split between fallback delays normal product inverse descents shortest list check diff append remove replace move convert name report certify completions man' options= operands=
    if ((COMP_CWORD == 1)); then
        COMPREPLY=($(compgen -W "$subcommands help --help --version" -- "$word"))
        return
    fi
    case ${COMP_WORDS[1]} in
    help) COMPREPLY=($(compgen -W "$subcommands" -- "$word")); return ;;
    show) options='--empty --book --edition --timeout --preset --names --json --help' operands='A B D' ;;
    why) options='--empty --last --at-most --whole --at --book --edition --timeout --preset --json --help' operands='A B D' ;;
    draw) options='--empty --both -o --png --force --book --edition --timeout --preset --names --json --help' operands='A B D' ;;
    same) options='--empty --status --book --edition --timeout --preset --json --help' operands='A B D' ;;
    split) options='--empty --allowed --locked --book --edition --timeout --preset --json --help' operands='A B D' ;;
    between) options='--allowed --locked --json --help' operands='A B D' ;;
    fallback) options='--empty --status --book --edition --timeout --preset --json --help' operands='A B D' ;;
    delays) options='--svg --png --force --timeout --json --help' operands='A B D' ;;
    normal) options='--empty --book --edition --timeout --preset --json --help' operands='A B D' ;;
    product) options='--empty --book --edition --timeout --preset --json --help' operands='A B D' ;;
    inverse) options='--empty --book --edition --timeout --preset --json --help' operands='A B D' ;;
    descents) options='--empty --book --edition --timeout --preset --json --help' operands='A B D' ;;
    shortest) options='--empty --limit --count --book --edition --timeout --preset --json --help' operands='A B D' ;;
    list) options='--edition --timeout --preset --lines --words --names --json --help' operands='files' ;;
    check) options='--edition --quiet --json --help' operands='files' ;;
    diff) options='--edition --timeout --names --quiet --json --help' operands='files' ;;
    append) options='--empty --edition --timeout --in-place -o --force --new --at-most --book --preset --from --dry-run --quiet --json --help' operands='files' ;;
    remove) options='--edition --timeout --in-place -o --force --dry-run --quiet --json --help' operands='files' ;;
    replace) options='--empty --edition --timeout --in-place -o --force --book --preset --dry-run --quiet --json --help' operands='files' ;;
    move) options='--edition --timeout --in-place -o --force --dry-run --quiet --json --help' operands='files' ;;
    convert) options='--edition --timeout --in-place -o --force --at-most --dry-run --quiet --json --help' operands='files' ;;
    name) options='--edition --timeout --remove --dry-run --quiet --json --help' operands='files' ;;
    report) options='--edition --timeout -o --force --date --strict --names --json --help' operands='files' ;;
    certify) options='--edition --timeout --lines -o --force --json --help' operands='files' ;;
    completions) options='--json --help' operands='bash zsh fish' ;;
    man) options='--markdown --json --help' operands='' ;;
    esac
    case $before in
    --book) COMPREPLY=($(compgen -f -- "$word")); return ;;
    --edition) COMPREPLY=($(compgen -W 'first second' -- "$word")); return ;;
    --timeout) COMPREPLY=(); return ;;
    --preset) COMPREPLY=(); return ;;
    --names) COMPREPLY=($(compgen -f -- "$word")); return ;;
    --last) COMPREPLY=(); return ;;
    --at-most) COMPREPLY=(); return ;;
    --at) COMPREPLY=(); return ;;
    -o) COMPREPLY=($(compgen -f -- "$word")); return ;;
    --png) COMPREPLY=($(compgen -f -- "$word")); return ;;
    --allowed) COMPREPLY=(); return ;;
    --locked) COMPREPLY=(); return ;;
    --svg) COMPREPLY=($(compgen -f -- "$word")); return ;;
    --limit) COMPREPLY=(); return ;;
    --from) COMPREPLY=($(compgen -f -- "$word")); return ;;
    --date) COMPREPLY=(); return ;;
    esac
    if [[ $word == -* ]]; then
        COMPREPLY=($(compgen -W "$options" -- "$word"))
    elif [[ $operands == files ]]; then
        COMPREPLY=($(compgen -f -- "$word"))
    else
        COMPREPLY=($(compgen -W "$operands" -- "$word"))
    fi
}
complete -o filenames -F _winnathey winnathey
