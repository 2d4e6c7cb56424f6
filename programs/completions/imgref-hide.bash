# Completes the words of imgref-hide in bash.
_imgref_hide() {
    local word=${COMP_WORDS[COMP_CWORD]} before=${COMP_WORDS[COMP_CWORD-1]}
    compopt -o filenames 2>/dev/null
    case $before in
        --find) mapfile -t COMPREPLY < <(compgen -W "faces people both" -- "$word"); return ;;
        --separator) mapfile -t COMPREPLY < <(compgen -W "comma semicolon tab space" -- "$word"); return ;;
        --first-frame) mapfile -t COMPREPLY < <(compgen -W "0 1" -- "$word"); return ;;
        --margin) mapfile -t COMPREPLY < <(compgen -W "20% 50% 8 16" -- "$word"); return ;;
        --detector) mapfile -t COMPREPLY < <(compgen -c -- "$word"); return ;;
        --model | --edits | --log | --list) mapfile -t COMPREPLY < <(compgen -f -- "$word"); return ;;
        --least | --every | --min-score | --columns | --score | --hold | --with | --also | --crf | --sheet | --cores | --jobs) return ;;
    esac
    if [[ $word == -* ]]; then
        mapfile -t COMPREPLY < <(compgen -W "--find --least --every --model --detector --list --min-score --columns --score --separator --first-frame --margin --hold --with --also --edits --again --crf --no-sound --sheet --log --force --damaged --ignore-room --cores --jobs --quiet --version --help" -- "$word")
    else
        mapfile -t COMPREPLY < <(compgen -f -- "$word")
    fi
}
complete -F _imgref_hide imgref-hide
