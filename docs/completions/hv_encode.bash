# Completion of the options of hv_encode for bash:
#
#     source docs/completions/hv_encode.bash
_hv_encode() {
    local word=${COMP_WORDS[COMP_CWORD]} before=${COMP_WORDS[COMP_CWORD - 1]} option left=()
    case $before in
    --emit) mapfile -t COMPREPLY < <(compgen -W 'stream recon' -- "$word") ;;
    --levels) mapfile -t COMPREPLY < <(compgen -W '0 1 2 3' -- "$word") ;;
    --effort) mapfile -t COMPREPLY < <(compgen -W '0 1 2' -- "$word") ;;
    --width | --height | --qp | --group | --workers | --segment | --synth | --pictures) COMPREPLY=() ;;
    *)
        # an option stands at most once
        for option in --width --height --qp --levels --group --workers --effort --segment --emit --synth \
            --pictures --help; do
            [[ " ${COMP_WORDS[*]:1} " == *" $option "* && $option != "$word" ]] || left+=("$option")
        done
        mapfile -t COMPREPLY < <(compgen -W "${left[*]}" -- "$word")
        ;;
    esac
}
complete -F _hv_encode hv_encode
