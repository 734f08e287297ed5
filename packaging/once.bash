# bash completion of once. `make manual` writes this file from the help of the program.
_once()
{
    local current=${COMP_WORDS[COMP_CWORD]} before=${COMP_WORDS[COMP_CWORD-1]} command= place=0 i options files file
    for ((i = 1; i < COMP_CWORD; i++)); do
        case ${COMP_WORDS[i]} in
            --format|--class|--limit|--links) [[ ${COMP_WORDS[i+1]} == = ]] && ((i++)); ((i++)) ;;
            -*) ;;
            *) if [[ $command ]]; then ((place++)); else command=${COMP_WORDS[i]}; fi ;;
        esac
    done
    [[ $before == = ]] && before=${COMP_WORDS[COMP_CWORD-2]}
    [[ $current == = ]] && before=${COMP_WORDS[COMP_CWORD-1]} current=
    case $command in
        replay) options="-h --help --explain --format" files=(json json txt) ;;
        collect) options="-h --help --explain --format --progress" files=(json ipfix) ;;
        check) options="-h --help --explain --format" files=(json json txt) ;;
        confirm) options="-h --help --explain --format" files=(json json txt) ;;
        audit) options="--limit -h --help --explain --format --progress" files=(json json) ;;
        run) options="--links -h --help --explain --format --progress" files=(json json pcap txt) ;;
        lint) options="-h --help --explain --format" files=(json json) ;;
        draw) options="--class -h --help --explain --format" files=(json json txt) ;;
        sum) options="-h --help --explain --format" files=(json txt) ;;
        join) options="-h --help --explain --format" files=(json json txt) ;;
        explain) options="-h --help --explain --format" files=(-) ;;
        help) [[ $place -eq 0 ]] && COMPREPLY=($(compgen -W "replay collect check confirm audit run lint draw sum join explain help" -- "$current")); return ;;
        *) COMPREPLY=($(compgen -W "replay collect check confirm audit run lint draw sum join explain help -h --help -V --version" -- "$current")); return ;;
    esac
    file=${files[place]--}
    case $before in
        --format) COMPREPLY=($(compgen -W "json" -- "$current")); return ;;
        --class) file=- ;;
        --limit) file=- ;;
        --links) file='' ;;
        *) [[ $current == -* ]] && COMPREPLY=($(compgen -W "$options" -- "$current")) && return ;;
    esac
    [[ $file == - ]] && return
    compopt -o filenames 2>/dev/null
    if [[ $file ]]; then
        mapfile -t COMPREPLY < <(compgen -f -X "!*.$file" -- "$current"; compgen -d -- "$current")
    fi
    [[ ${COMPREPLY[0]} ]] || mapfile -t COMPREPLY < <(compgen -f -- "$current")
}
complete -F _once once
