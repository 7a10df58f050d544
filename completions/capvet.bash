# Completions of capvet for bash: its commands, the options of each, and files.

# Puts the completions of the current argument into COMPREPLY.
_capvet() {
  local commands="segments vet explain filter dump get check canon hash pack unpack help"
  local current=${COMP_WORDS[COMP_CWORD]} previous=${COMP_WORDS[COMP_CWORD - 1]}
  local command="" options="" places=0 file_at=0 ended="" files="" names="" word at
  COMPREPLY=()
  # The command, and the number of arguments after it that aren't options, up to the current one. Names after `--files` are no
  # such arguments.
  for ((at = 1; at < COMP_CWORD; at++)); do
    word=${COMP_WORDS[at]}
    if [[ -z $command ]]; then
      [[ $word == -* ]] || command=$word
    elif [[ -z $ended && $word == -- ]]; then
      ended=yes names=""
    elif [[ -z $ended && $word == --files ]]; then
      files=yes names=yes
    elif [[ -z $ended && $word == --@(size|words|depth) ]]; then
      [[ ${COMP_WORDS[at + 1]} != "=" ]] || ((at++))
      ((at++))
      names=""
    elif [[ -n $ended || $word != -* ]]; then
      [[ -n $names ]] || ((places++))
    else
      names=""
    fi
  done
  # Numbers have no completions.
  if [[ -z $ended && ($previous == --@(size|words|depth) || $previous == "=" || $current == "=") ]]; then
    return
  fi
  case $command in
    "") options="--help --version" ;;
    segments) options="--packed --size --files --help" ;;
    vet) options="--packed --size --words --depth --strict --unamplified --exclusive --one --json --files --help" ;;
    explain) options="--packed --size --words --depth --strict --unamplified --exclusive --canonical --one --json --files --help" ;;
    filter) options="--packed --size --words --depth --exclusive --strict --unamplified --allow-nonstrict --allow-amplified --pack --stop --one --help" ;;
    check | hash) options="--packed --size --words --depth --strict --unamplified --one --json --files --help" ;;
    dump | get | canon)
      options="--packed --size --words --depth --strict --unamplified --one --help"
      ;;
    pack | unpack) options="--help" ;;
    help)
      ((places > 0)) || mapfile -t COMPREPLY < <(compgen -W "${commands% help}" -- "$current")
      return
      ;;
    *) return ;;
  esac
  # `get` has its path before the file. Some commands take any number of files. `--files` has the names after it alone.
  case $command in
    get) file_at=1 ;;
    explain | hash) file_at=$places ;;
  esac
  if [[ -n $names ]]; then
    file_at=$places
  elif [[ -n $files ]]; then
    file_at=-1
  fi
  if [[ -z $ended && $current == -* ]]; then
    mapfile -t COMPREPLY < <(compgen -W "$options" -- "$current")
  elif [[ -z $command ]]; then
    mapfile -t COMPREPLY < <(compgen -W "$commands" -- "$current")
  elif ((places == file_at)); then
    # (it fails outside of a completion)
    compopt -o filenames 2> /dev/null
    mapfile -t COMPREPLY < <(compgen -f -- "$current")
  fi
}

complete -F _capvet capvet
