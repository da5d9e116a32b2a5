# Completion of the command line of relayd in bash. packaging/manual.py makes this file of what relayd's help prints.
# shellcheck shell=bash
_relayd() {
  local word=${COMP_WORDS[COMP_CWORD]} before=${COMP_WORDS[COMP_CWORD-1]}
  local commands="assemble order disassemble verify explain graph trace replay serve check help"
  # the options, those whose value is a file, those with another value, and whether the arguments are files
  local options="--help --version" files="" values="" arguments=""
  case ${COMP_WORDS[1]} in
  assemble)
    options="--lines --help"
    files="--lines"
    arguments="files"
    ;;
  order)
    options="--lines --from --help"
    files="--lines --from"
    arguments="files"
    ;;
  disassemble)
    options="--slots --lines --help"
    files="--lines"
    arguments="files"
    ;;
  verify)
    options="--lines --help"
    files="--lines"
    arguments="files"
    ;;
  explain)
    options="--slot --lines --help"
    files="--lines"
    values="--slot"
    arguments="files"
    ;;
  graph)
    options="--lines --help"
    files="--lines"
    arguments="files"
    ;;
  trace)
    options="--data --side --source --tx --permit --channel --lines --help"
    files="--lines"
    values="--data --side --source --tx --permit --channel"
    arguments="files"
    ;;
  replay)
    options="--nonce --why --confine --trace --cover --client-lines --peer-lines --against --against-peer --realm --user \
      --users --secret --revoked --slots --user-slots --relay-ip --relay-ip6 --first-port --client --peer --same-as \
      --help"
    files="--client-lines --peer-lines --against --against-peer --users --secret --revoked --client --peer"
    values="--nonce --trace --realm --user --slots --user-slots --relay-ip --relay-ip6 --first-port --same-as"
    arguments="files"
    ;;
  serve)
    options="--port --options --listen --listen6 --buffer --reuse-port --deny --allow --relayed-ports --unconfined \
      --shadow-client --shadow-peer --rounds --nonce-lifetime --stats --metrics --record --record-limit --log \
      --realm --user --users --secret --revoked --slots --user-slots --relay-ip --relay-ip6 --first-port --client \
      --peer --same-as --help"
    files="--options --shadow-client --shadow-peer --metrics --record --users --secret --revoked --client --peer"
    values="--port --listen --listen6 --buffer --deny --allow --relayed-ports --rounds --nonce-lifetime --stats \
      --record-limit --realm --user --slots --user-slots --relay-ip --relay-ip6 --first-port --same-as"
    ;;
  check)
    options="--user --help"
    values="--user"
    ;;
  esac
  # bash takes --option=value apart at the sign
  if [ "$word" = "=" ]; then
    word=""
  elif [ "$before" = "=" ]; then
    before=${COMP_WORDS[COMP_CWORD-2]}
  fi
  COMPREPLY=()
  if [[ $COMP_CWORD -eq 1 ]]; then
    mapfile -t COMPREPLY < <(compgen -W "$commands $options" -- "$word")
  elif [[ ${COMP_WORDS[1]} == help ]]; then
    mapfile -t COMPREPLY < <(compgen -W "$commands" -- "$word")
  elif [[ " $values " == *" $before "* ]]; then
    return
  elif [[ " $files " == *" $before "* ]] || [[ $arguments && $word != -?* ]]; then
    compopt -o filenames 2>/dev/null
    mapfile -t COMPREPLY < <(compgen -f -- "$word")
  else
    mapfile -t COMPREPLY < <(compgen -W "$options" -- "$word")
  fi
}
complete -F _relayd relayd
