# bash completion for siuwbren(1)

# _siuwbren_refs: the refs of the repository that the words name
_siuwbren_refs() {
  local place dir='' at=()
  for ((place = 1; place < COMP_CWORD; place++)); do
    case ${COMP_WORDS[place]} in
      -C) at+=(-C "${COMP_WORDS[place + 1]/#\~\//$HOME/}") ;;
      --git-dir)
        dir=${COMP_WORDS[place + 1]}
        [ "$dir" != = ] || dir=${COMP_WORDS[place + 2]}
        ;;
    esac
  done
  dir=${dir/#\~\//$HOME/}
  # a worktree stands for its git folder
  if [ -n "$dir" ] && [ -e "$dir/.git" ] && [ ! -e "$dir/HEAD" ]; then
    git "${at[@]}" -C "$dir" for-each-ref --format='%(refname:short)' 2>/dev/null
  else
    git "${at[@]}" ${dir:+"--git-dir=$dir"} for-each-ref --format='%(refname:short)' 2>/dev/null
  fi
}

_siuwbren() {
  local current=${COMP_WORDS[COMP_CWORD]} before=${COMP_WORDS[COMP_CWORD - 1]} first=1 words=
  COMPREPLY=()
  # an option with its value is three words, of which the second is `=`
  if [ "$current" = = ]; then
    current=
  elif [ "$before" = = ] && [ "$COMP_CWORD" -gt 2 ]; then
    before=${COMP_WORDS[COMP_CWORD - 2]}
  fi
  while [ "${COMP_WORDS[first]}" = -C ] && [ "$COMP_CWORD" -gt $((first + 1)) ]; do
    first=$((first + 2))
  done
  local command=${COMP_WORDS[first]}
  if [ "$before" = -C ] && [ "$COMP_CWORD" -eq $((first + 1)) ]; then
    mapfile -t COMPREPLY < <(compgen -d -- "$current")
    return
  fi
  if [ "$COMP_CWORD" -eq "$first" ]; then
    words='checkout checkin plan rehearse audit help -C --help --version'
  elif [ "$command" = help ]; then
    [ "$COMP_CWORD" -ne $((first + 1)) ] || words='checkout checkin plan rehearse audit'
  else
    case $before in
      --git-dir)
        mapfile -t COMPREPLY < <(compgen -d -- "$current")
        return
        ;;
      --journal)
        mapfile -t COMPREPLY < <(compgen -f -- "$current")
        return
        ;;
      --commit) words=$(_siuwbren_refs) ;;
      --workers) words='1 2 4 8 16' ;;
      --report)
        words='text json'
        [ "$command" != checkout ] || words+=' none'
        ;;
      *)
        case $command in
          checkout) words='--git-dir --commit --workers --report -z --journal --progress --no-progress -q --quiet -u --update-index --help' ;;
          checkin) words='--git-dir --allow-empty -u --update-index --help' ;;
          plan) words='--git-dir --commit --report -z --help' ;;
          rehearse | audit) words='--help' ;;
        esac
        if [[ $command == check* && $current != -* ]]; then
          mapfile -t COMPREPLY < <(compgen -d -- "$current")
          return
        fi
        if [ "$command" = audit ] && [[ $current != -* ]]; then
          mapfile -t COMPREPLY < <(compgen -f -- "$current")
          return
        fi
        ;;
    esac
  fi
  mapfile -t COMPREPLY < <(compgen -W "$words" -- "$current")
}
complete -o filenames -F _siuwbren siuwbren
