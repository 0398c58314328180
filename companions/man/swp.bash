# Completion of the words of `swp` for bash: source this file, or put it into /etc/bash_completion.d.

_swp() {
  local words=
  case $COMP_CWORD:${COMP_WORDS[1]} in
    1:*) words="replay decode tap end gen tables" ;;
    2:tap) words="bare hci" ;;
    2:end) words="clf uicc" ;;
    3:end) words="bytes line" ;;
  esac
  mapfile -t COMPREPLY < <(compgen -W "$words" -- "${COMP_WORDS[COMP_CWORD]}")
}
complete -o default -F _swp swp
