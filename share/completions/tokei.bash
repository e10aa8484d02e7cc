# The options of tokei for bash, 4 and later.

# Completes the last of some languages, parted by commas. It offers those of the tokei on the path, in any case of letters.
_tokei_types() {
    local front=$1 list=$2 quote="" name piece
    [[ $list != [\"\']* ]] || quote=${list:0:1} list=${list:1}
    piece=${list##*,}
    front+=$quote${list%"$piece"}
    [[ $quote ]] || piece=${piece//\\/}
    while IFS= read -r name; do
        [[ ${name,,} == "${piece,,}"* ]] || continue
        [[ $quote ]] || printf -v name %q "$name"
        COMPREPLY+=("$front$name")
    done < <(tokei --languages 2>/dev/null | sed '1d; s/  .*//')
}

_tokei() {
    local current=${COMP_WORDS[COMP_CWORD]} option=${COMP_WORDS[COMP_CWORD - 1]} front="" words=""
    COMPREPLY=()
    # `=` is a word of its own, unless COMP_WORDBREAKS says otherwise
    if [[ $current == = ]]; then
        current=
    elif [[ $option == = ]]; then
        option=${COMP_WORDS[COMP_CWORD - 2]}
    elif [[ $current == -*=* ]]; then
        option=${current%%=*} front=${current%%=*}= current=${current#*=}
    fi
    # the last of several letters, as in -fs
    [[ ! $option =~ ^-[fClvhV]+([ceinorst])$ ]] || option=-${BASH_REMATCH[1]}
    case $option in
        -o | --output) words="json" ;;
        --streaming) words="simple json" ;;
        -s | --sort | -r | --rsort) words="files lines blanks code comments" ;;
        -n | --num-format) words="plain commas dots underscores" ;;
        -t | --types)
            compopt +o default -o nospace 2>/dev/null
            _tokei_types "$front" "$current"
            return
            ;;
        -c | --columns | -e | --exclude)
            compopt +o default 2>/dev/null
            return
            ;;
        -i | --input | --table) return ;;
        *)
            [[ $current == -* ]] || return
            words="-c --columns -e --exclude -f --files -i --input --hidden -l --languages --no-ignore --no-ignore-parent
                --no-ignore-dot --no-ignore-vcs -o --output --streaming -s --sort -r --rsort -t --types -C --compact
                -n --num-format -v --verbose --table -h --help -V --version"
            ;;
    esac
    compopt +o default 2>/dev/null
    mapfile -t COMPREPLY < <(compgen -P "$front" -W "$words" -- "$current")
}
# what isn't said here is the name of a file
complete -o default -F _tokei tokei
