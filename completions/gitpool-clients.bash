# Completion of the clients of gitpool for bash. completions/README.md says where it goes.

# Sets `place` to the number of words that stand before the one that is completed, without options and their values.
_gitpool_clients_count() {
  local at
  place=0
  for ((at = 1; at < COMP_CWORD; at++)); do
    case ${COMP_WORDS[at]} in
      --pool | --into | --all | --filter | --map | --json | --import-marks | --import-marks-if-exists | --export-marks)
        ((at++)); [ "${COMP_WORDS[at]}" != = ] || ((at++)) ;;
      -?*) ;;
      *) ((place++)) ;;
    esac
  done
}

_gitpool_clients_offer() { mapfile -t COMPREPLY < <(compgen "$@" -- "${word#=}"); }

_gitpool_clients_options() {
  case $1 in
    gitpool-import)
      echo "--pool --all --rewrite --head --partial --dry-run --filter --import-marks --import-marks-if-exists --export-marks --map --json"
      echo "--progress --no-progress --help --version"
      ;;
    gitpool-export) echo "--pool --into --help --version" ;;
    gitpool-shell) echo "--pool --read-only --idle --help --version" ;;
    gitpool-tenants) echo "--version" ;;
  esac
}

# What stands before the word decides, also after `--pool=`, which bash takes apart.
_gitpool_clients() {
  local word=${COMP_WORDS[COMP_CWORD]} before=${COMP_WORDS[COMP_CWORD - 1]} name=${1##*/} place
  COMPREPLY=()
  [ "$before" != = ] || before=${COMP_WORDS[COMP_CWORD - 2]}
  _gitpool_clients_count
  case $name:$place:$before:$word in
    gitpool-import:*:--filter:*) _gitpool_clients_offer -W "all dates features notes properties signatures" ;;
    *:--pool:* | *:--all:* | *:--map:* | *:--json:* | *:--import-marks:* | *:--import-marks-if-exists:* | *:--export-marks:* | gitpool-tenants:0:*:[!-]* | gitpool-tenants:0:*: | gitpool-import:0:*:[!-]* | gitpool-import:0:*:)
      compopt -o filenames 2> /dev/null
      _gitpool_clients_offer -f ;;
    *:--into:*)
      compopt -o filenames 2> /dev/null
      _gitpool_clients_offer -d ;;
    gitpool-shell:1:*:[!-]* | gitpool-shell:1:*:) _gitpool_clients_offer -W "fetch push" ;;
    *:-*) _gitpool_clients_offer -W "$(_gitpool_clients_options "$name")" ;;
  esac
}

complete -F _gitpool_clients gitpool-export gitpool-import gitpool-shell gitpool-tenants
