# Completion of twosync's words for bash. Source this file, or copy it to the folder of bash-completion as `twosync`.
_twosync() {
  local word=${COMP_WORDS[COMP_CWORD]} before=${COMP_WORDS[COMP_CWORD - 1]} options='--help' name=''
  [ "$COMP_CWORD" -le 1 ] || name=${COMP_WORDS[1]}
  case $before in
    --workers)
      mapfile -t COMPREPLY < <(compgen -W '1 2 4 8 16 32 64' -- "$word")
      return
      ;;
    --checkpoint)
      mapfile -t COMPREPLY < <(compgen -W '1000 10000 100000' -- "$word")
      return
      ;;
    --holds)
      mapfile -t COMPREPLY < <(compgen -f -- "$word")
      return
      ;;
  esac
  case $name in
    '')
      mapfile -t COMPREPLY < <(compgen -W 'trial scan show plan preview check run sync --help --version' -- "$word")
      return
      ;;
    plan | check) options='--holds --hold-special --workers --explain --quiet --help' ;;
    run) options='--holds --hold-special --workers --checkpoint --explain --quiet --help' ;;
    sync) options='--allow-empty --holds --hold-special --workers --checkpoint --explain --quiet --help' ;;
    preview) options='--json --allow-empty --holds --hold-special --workers --explain --quiet --help' ;;
    trial) options='--workers --explain --help' ;;
    scan) options='--workers --explain --quiet --help' ;;
    show) options='--explain --help' ;;
  esac
  if [[ $word == -* ]]; then
    mapfile -t COMPREPLY < <(compgen -W "$options" -- "$word")
  else
    mapfile -t COMPREPLY < <(compgen -f -- "$word")
  fi
}
complete -o filenames -F _twosync twosync
