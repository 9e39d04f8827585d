# Completion of rssd, lab and disk for bash: source this file, or put it into /usr/share/bash-completion/completions/rssd

# Proposes these words.
_rssd_words() {
    mapfile -t COMPREPLY < <(compgen -W "$1" -- "${COMP_WORDS[COMP_CWORD]}")
}

# Shows the range of a number. It has no ending to propose, so an empty word stands beside the range, that it is not taken.
_rssd_range() {
    [ -n "${COMP_WORDS[COMP_CWORD]}" ] || COMPREPLY=("$1" " ")
}

# Proposes the words of a device, SCHEME BLOCKS PAGES SECTORS REUSE, of which the first stands at place $1.
_rssd_device() {
    local blocks=${COMP_WORDS[$1 + 1]-} pages=${COMP_WORDS[$1 + 2]-}
    case $((COMP_CWORD - $1)) in
        0) _rssd_words "plain16 rs16 rs512 coset16 coset512 flip16 flip512 ham16 ham512" ;;
        1) _rssd_range BLOCKS:2..1024 ;;
        2) _rssd_range PAGES:2..128 ;;
        3) _rssd_range "SECTORS:1..$(((${blocks:-2} - 1) * ${pages:-2} - 1))" ;;
        4) _rssd_range "REUSE:0..${blocks:-2}" ;;
    esac
}

_rssd() {
    COMPREPLY=()
    case $COMP_CWORD:${COMP_WORDS[1]-} in
        1:*) _rssd_words "replay queue format worn pair run audit make upgrade" ;;
        2:make) _rssd_range SEED:0..18446744073709551615 ;;
        3:make) _rssd_range COUNT:0..20000 ;;
        *:make) _rssd_device 4 ;;
        7:worn) _rssd_range "RESERVE:0..${COMP_WORDS[4]:-2}" ;;
        8:worn) _rssd_range BAD:0..4294967295 ;;
        *:replay | *:queue | *:format | *:worn | *:pair) _rssd_device 2 ;;
    esac
}
complete -F _rssd rssd ./rssd build/rssd

# Proposes the words of a die, of which the first stands at place $1: those of a device, or of the commands `worn`, `pair` and `run`.
_lab_die() {
    local place=$((COMP_CWORD - $1))
    case $place:${COMP_WORDS[$1]-} in
        0:*) _rssd_words "worn pair run plain16 rs16 rs512 coset16 coset512 flip16 flip512 ham16 ham512" ;;
        6:worn) _rssd_range "RESERVE:0..${COMP_WORDS[$1 + 3]:-2}" ;;
        7:worn) _rssd_range BAD:0..4294967295 ;;
        *:worn | *:pair) _rssd_device $(($1 + 1)) ;;
        *:run) ;;
        *) _rssd_device "$1" ;;
    esac
}

_lab() {
    COMPREPLY=()
    case $COMP_CWORD:${COMP_WORDS[1]-} in
        1:*) _rssd_words "play draw" ;;
        2:*) _rssd_words "quiet loud progress" ;;
        3:play | 7:draw) _rssd_range EVERY:1.. ;;
        3:draw) _rssd_words "uniform hot zipf sequential mixed" ;;
        4:draw) _rssd_range SEED:0..18446744073709551615 ;;
        5:draw) _rssd_range COUNT:0..18446744073709551615 ;;
        6:draw) _rssd_range IDLE:0..1000 ;;
        *:play) _lab_die 4 ;;
        *:draw) _lab_die 8 ;;
    esac
}
complete -F _lab lab ./lab build/lab

_disk() {
    COMPREPLY=()
    case $COMP_CWORD:${COMP_WORDS[1]-} in
        1:*) _rssd_words "new open" ;;
        2:*) mapfile -t COMPREPLY < <(compgen -f -- "${COMP_WORDS[COMP_CWORD]}") ;;
        [3-7]:new) _rssd_device 3 ;;
        *) _rssd_words "cut sync none all mask:" ;;
    esac
}
complete -F _disk disk ./disk build/disk
