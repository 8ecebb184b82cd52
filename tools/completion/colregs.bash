# Completion of colregs in bash: `. tools/completion/colregs.bash`. `dev/check manual` compares its modes and options with `--help`.
_colregs() {
  local modes="points audit plan drill migrate recheck watch"
  local options="--start --ticks --seed --why --rows --help --version"
  local word=${COMP_WORDS[COMP_CWORD]} given=0 k
  COMPREPLY=()
  # The mode and the scenario are the words that are no options and no values of options.
  for ((k = 1; k < COMP_CWORD; k++)); do
    case ${COMP_WORDS[k]} in
      --start | --ticks | --seed | --rows) ((k++)) ;;
      -*) ;;
      *) ((given++)) ;;
    esac
  done
  case ${COMP_WORDS[COMP_CWORD - 1]} in
    --start | --ticks | --seed) return ;;
    --rows)
      compopt -o filenames 2>/dev/null
      mapfile -t COMPREPLY < <(compgen -f -- "$word")
      return
      ;;
  esac
  if [[ $word == -* ]]; then
    mapfile -t COMPREPLY < <(compgen -W "$options" -- "$word")
  elif ((given == 0)); then
    mapfile -t COMPREPLY < <(compgen -W "$modes" -- "$word")
  elif ((given == 1)); then
    compopt -o filenames 2>/dev/null
    mapfile -t COMPREPLY < <(compgen -d -- "$word"; compgen -f -X '!*.toml' -- "$word")
  else
    mapfile -t COMPREPLY < <(compgen -W "$options" -- "$word")
  fi
}
complete -F _colregs colregs
