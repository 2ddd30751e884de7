# Completion of nngcat's words in bash: put it into /etc/bash_completion.d/, or source it.

# The last two words before the cursor, put together again where `=` and `:` break them (COMP_WORDBREAKS).
_nngcat_words() {
    local i piece glued=1
    before= word=
    for ((i = 1; i <= COMP_CWORD; i++)); do
        piece=${COMP_WORDS[i]}
        if [[ $i -gt 1 && ( $glued == 0 || $piece =~ ^[=:]+$ ) ]]; then
            word+=$piece
        else
            before=$word word=$piece
        fi
        [[ $piece =~ ^[=:]+$ ]]
        glued=$?
    done
}

# Removes from each answer what stands before the last break within the word: bash keeps it.
_nngcat_trim() {
    local i head=
    [[ $COMP_WORDBREAKS == *=* && $word == --*=* ]] && head=${word%%=*}=
    [[ $COMP_WORDBREAKS == *:* && $word == *:* ]] && head=${word%"${word##*:}"}
    for i in "${!COMPREPLY[@]}"; do
        COMPREPLY[i]=${COMPREPLY[i]#"$head"}
    done
}

# The answers among the words of the first argument, after what stands before the value.
_nngcat_among() {
    local answer
    while IFS= read -r answer; do
        COMPREPLY+=("$lead$answer")
    done < <(compgen -W "$1" -- "$value")
}

# The names of files. A quote or backslashes that were typed are no part of a name; bash puts a backslash before a
# blank of an answer, and a / after a directory.
_nngcat_files() {
    local answer
    value=${value#[\"\']}
    value=${value//\\/}
    while IFS= read -r answer; do
        COMPREPLY+=("$lead$answer")
    done < <(compgen -f -- "$value")
    compopt -o filenames 2>/dev/null
}

_nngcat_value() {
    case $1 in
        --file) _nngcat_files ;;
        --dial | --listen)
            _nngcat_among 'tcp:// ipc:// ws:// inproc://'
            compopt -o nospace 2>/dev/null ;;
    esac
}

_nngcat() {
    local before word value lead=
    local roles='--pair --pair1 --bus --pub --sub --push --pull --req --rep --surveyor --respondent
        --pair0 --bus0 --pub0 --sub0 --push0 --pull0 --req0 --rep0 --surveyor0 --respondent0'
    local others='--dial --listen --data --file --subscribe --count --interval --recv-timeout --send-timeout --recv-max
        --ascii --raw --quoted --hex --msgpack --drill --help --version'
    COMPREPLY=()
    _nngcat_words
    value=$word
    case $before in
        --file | --dial | --listen | --data | --subscribe | --count | --interval | --recv-timeout | --send-timeout | --recv-max | --drill)
            _nngcat_value "$before" ;;
        *)
            if [[ $word == --*=* ]]; then
                value=${word#*=} lead=${word%%=*}=
                _nngcat_value "${word%%=*}"
            else
                _nngcat_among "$roles $others"
            fi ;;
    esac
    _nngcat_trim
}
complete -F _nngcat nngcat
