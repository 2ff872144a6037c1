# shellcheck shell=bash
# Completion of store-reader in bash. zsh takes it after: autoload -U bashcompinit && bashcompinit

_store_reader() {
  local word=${COMP_WORDS[COMP_CWORD]} before=${COMP_WORDS[COMP_CWORD - 1]} command=${COMP_WORDS[1]} options
  COMPREPLY=()
  if ((COMP_CWORD == 1)); then
    mapfile -t COMPREPLY < <(compgen -W "open read seal command journal refusals help --help --version" -- "$word")
    return
  fi
  case $before in
  --key-file | --shrink | --repair)
    mapfile -t COMPREPLY < <(compgen -f -- "$word")
    return
    ;;
  --by)
    mapfile -t COMPREPLY < <(compgen -W "day hour" -- "$word")
    return
    ;;
  --level)
    mapfile -t COMPREPLY < <(compgen -W "5 6 7" -- "$word")
    return
    ;;
  --key | --source | --ieee | --counter | --key-sequence | --jump | --forget | --margin) return ;;
  esac
  local of_frames="--full --json --csv --frames --by-sender --by --jump --local --summary-only --refused --source --flush --mac"
  case $command in
  open) options="--key --key-file --level --replay --key-sequence $of_frames" ;;
  read) options=$of_frames ;;
  seal) options="--key --key-file --level --counter --ieee --key-sequence --json" ;;
  command) options="--full --json --csv --summary-only --refused --flush" ;;
  journal) options="--shrink --forget --repair --margin --json" ;;
  refusals) options="--json --csv" ;;
  *) return ;;
  esac
  if [[ $word == -* ]]; then
    mapfile -t COMPREPLY < <(compgen -W "$options --help --version" -- "$word")
  elif [[ $command != refusals ]]; then
    mapfile -t COMPREPLY < <(compgen -f -- "$word")
  fi
}

complete -o filenames -F _store_reader store-reader
