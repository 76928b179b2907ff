# Completion of tdx and tdx-view for bash. Made by tools/companions.
_tdx() {
  local word=${COMP_WORDS[COMP_CWORD]} last=${COMP_WORDS[COMP_CWORD - 1]} before=" ${COMP_WORDS[*]:0:COMP_CWORD} " option options='' left=()
  COMPREPLY=()
  case ${COMP_WORDS[1]} in
    replay) options='--bundles --keys --secrets --out-bundles --guest-out --report-key' ;;
    run) options='--bundles --keys --secrets --out-bundles --guest-out --report-key' ;;
  esac
  if [[ $COMP_CWORD -eq 1 ]]; then
    mapfile -t COMPREPLY < <(compgen -W 'replay run check soak verify' -- "$word")
  elif [[ -n $options && $word == -* && $last != @(--bundles|--guest-out|--keys|--out-bundles|--report-key|--secrets) ]]; then
    for option in $options; do
      [[ $before == *" $option "* ]] || left+=("$option")
    done
    mapfile -t COMPREPLY < <(compgen -W "${left[*]}" -- "$word")
  elif [[ ${COMP_WORDS[1]} == @(replay|run|check|verify) ]]; then
    compopt -o default
  fi
}
complete -F _tdx tdx
_tdx_view() {
  local word=${COMP_WORDS[COMP_CWORD]} last=${COMP_WORDS[COMP_CWORD - 1]} before=" ${COMP_WORDS[*]:0:COMP_CWORD} " option options='' left=()
  COMPREPLY=()
  case ${COMP_WORDS[1]} in
    trace) options='--json --bundles --keys --secrets' ;;
    state) options='--json --bundles --keys --secrets --after' ;;
  esac
  if [[ $COMP_CWORD -eq 1 ]]; then
    mapfile -t COMPREPLY < <(compgen -W 'bundles trace state' -- "$word")
  elif [[ -n $options && $word == -* && $last != @(--bundles|--keys|--secrets|--after) ]]; then
    for option in $options; do
      [[ $before == *" $option "* ]] || left+=("$option")
    done
    mapfile -t COMPREPLY < <(compgen -W "${left[*]}" -- "$word")
  elif [[ ${COMP_WORDS[1]} == @(bundles|trace|state) && $last != --after ]]; then
    compopt -o default
  fi
}
complete -F _tdx_view tdx-view
