# bash completion for usbplan
_usbplan() {
  local word=${COMP_WORDS[COMP_CWORD]} before=${COMP_WORDS[COMP_CWORD - 1]} options='--help' kind=-f
  COMPREPLY=()
  if [ "$COMP_CWORD" = 1 ]; then
    mapfile -t COMPREPLY < <(compgen -W 'packet check tree draw run explain page pcap device far live test help --help --version' -- "$word")
    return
  fi
  case "${COMP_WORDS[1]}" in
    help)
      mapfile -t COMPREPLY < <(compgen -W 'packet check tree draw run explain page pcap device far live test help' -- "$word")
      return
      ;;
    draw) options='--ascii --help' ;;
    device) options='--ports --help' ;;
    far) options='--judge --limit --rounds --help' ;;
    live) options='--limit --wide-hubs --help' ;;
    explain) options='--only --help' ;;
    test) options='--accept --help' kind=-d ;;
  esac
  case "$before" in
    --ports) mapfile -t COMPREPLY < <(compgen -W '1 2 3 4 5 6 7' -- "$word") ;;
    --limit) ;;
    --only) mapfile -t COMPREPLY < <(compgen -W 'all setup damage' -- "$word") ;;
    *)
      if [[ "$word" == -* ]]; then
        mapfile -t COMPREPLY < <(compgen -W "$options" -- "$word")
      else
        compopt -o filenames 2>/dev/null
        mapfile -t COMPREPLY < <(compgen "$kind" -- "$word")
      fi
      ;;
  esac
}
complete -F _usbplan usbplan
