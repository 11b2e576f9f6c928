# Completes the arguments of the command in bash. The string to encode is nothing that could be guessed.
_qrencode_proved() {
    local word=${COMP_WORDS[COMP_CWORD]} before=${COMP_WORDS[COMP_CWORD - 1]} words='-8 -h -i -k -S -l -m -t -v'
    case $before in
        -l) words='L M Q H' ;;
        -m) words='0 1 2 4 8' ;;
        -t) words='ASCII ASCIIi UTF8 SVG' ;;
        -v) words=$(seq 1 40) ;;
        *) [[ $word == -* ]] || return 0 ;;
    esac
    mapfile -t COMPREPLY < <(compgen -W "$words" -- "$word")
}
complete -F _qrencode_proved qrencode
