# bash completion for cmap

_cmap() {
    local current=${COMP_WORDS[COMP_CWORD]} before=${COMP_WORDS[COMP_CWORD - 1]} subcommand=${COMP_WORDS[1]}
    local warnings="all nothing-declared no-codespace outside-codespace overlap inverted-range crosses-row last-byte"
    warnings+=" no-text private-use noncharacter replacement-character null-character no-mapping name-differs"
    warnings+=" mode-differs count-differs long-section no-endcmap code-length odd-digits odd-text"
    COMPREPLY=()
    if ((COMP_CWORD == 1)); then
        mapfile -t COMPREPLY < <(compgen -W "info list find check decode lookup text encode where diff write repair make bundle --help --version" -- "$current")
        return
    fi
    case $before in
    --base)
        compopt -o filenames 2>/dev/null
        mapfile -t COMPREPLY < <(compgen -d -- "$current")
        return
        ;;
    --to-unicode)
        if [[ $subcommand != check ]]; then
            compopt -o filenames 2>/dev/null
            mapfile -t COMPREPLY < <(compgen -f -- "$current")
            return
        fi
        ;;
    --bundle | --files-from | --output | -o)
        compopt -o filenames 2>/dev/null
        mapfile -t COMPREPLY < <(compgen -f -- "$current")
        return
        ;;
    --budget | --max-faults | --name | --codes | --collection | --use) return ;;
    --deny)
        mapfile -t COMPREPLY < <(compgen -W "$warnings" -- "$current")
        return
        ;;
    esac
    case $subcommand in
    info | list | find | check | decode | lookup | text | encode | where | diff | write | repair | make | bundle) ;;
    *) return ;;
    esac
    if [[ $current == -* ]]; then
        case $subcommand in
        list) mapfile -t COMPREPLY < <(compgen -W "--budget --lenient --effective" -- "$current") ;;
        where) ;;
        repair) mapfile -t COMPREPLY < <(compgen -W "--base --bundle --no-predefined --output --help" -- "$current") && return ;;
        write) mapfile -t COMPREPLY < <(compgen -W "--base --bundle --no-predefined --budget --flatten --codes --tidy --binary --name --output --help" -- "$current") && return ;;
        make) mapfile -t COMPREPLY < <(compgen -W "--name --collection --vertical --use --output --help" -- "$current") && return ;;
        bundle) mapfile -t COMPREPLY < <(compgen -W "--output --name --verify --help" -- "$current") && return ;;
        encode) mapfile -t COMPREPLY < <(compgen -W "--to-unicode --collection --simple --exact --missing --pieces --budget --lenient" -- "$current") ;;
        find) mapfile -t COMPREPLY < <(compgen -W "--to-unicode --collection --simple --budget --lenient" -- "$current") ;;
        decode | text) mapfile -t COMPREPLY < <(compgen -W "--to-unicode --collection --simple --fold --budget --lenient" -- "$current") ;;
        check) mapfile -t COMPREPLY < <(compgen -W "--budget --files-from --null --first --max-faults --lint --to-unicode --deny --quiet" -- "$current") ;;
        *) mapfile -t COMPREPLY < <(compgen -W "--budget --lenient" -- "$current") ;;
        esac
        mapfile -t -O "${#COMPREPLY[@]}" COMPREPLY < <(compgen -W "--base --bundle --no-predefined --json --help" -- "$current")
    else
        compopt -o filenames 2>/dev/null
        mapfile -t COMPREPLY < <(compgen -f -- "$current")
    fi
}

complete -F _cmap cmap
