# Completes the command line of `sift` in bash: the command, the options that it takes and that don't stand there yet, and
# a file after `<`; and of its tools, as sift-sweep: their options, and files. tools/install puts it where bash-completion
# looks for it; without that, source it.
_sift() {
  local place=$COMP_CWORD word=${COMP_WORDS[COMP_CWORD]} before options offered='' option
  COMPREPLY=()

  # Bash splits words at `=` and `<`, which are then words of their own.
  case $word in = | '<') word='' place=$((place + 1)) ;; esac
  before=${COMP_WORDS[place - 1]}
  [ "$before" = = ] && before=${COMP_WORDS[place - 2]}

  case $before in
    '<') compopt -o filenames 2>/dev/null; mapfile -t COMPREPLY < <(compgen -f -- "$word"); return ;;
    --workers) mapfile -t COMPREPLY < <(compgen -W '1 2 3 4 5 6 7 8' -- "$word"); return ;;
    --report) mapfile -t COMPREPLY < <(compgen -W '1 2' -- "$word"); return ;;
    --order | --number | --copies | --subframes | --bus | --from | --value | --n | --m | --skew | --error | --rate | --rounds) return ;;
  esac

  if [ "$place" -eq 1 ]; then
    mapfile -t COMPREPLY < <(compgen -W 'run votes ideal check gen trial plan judge buses byz clocks' -- "$word")
    return
  fi
  case ${COMP_WORDS[1]} in
    run) options='--order --workers --report' ;;
    votes) options='--order --workers' ;;
    gen) options='--number' ;;
    trial) options='--number --order --workers' ;;
    plan) options='--copies --subframes' ;;
    judge) options='--report' ;;
    buses) options='--bus --from --value' ;;
    clocks) options='--n --m --skew --error --rate --rounds --number' ;;
    *) return ;;
  esac
  for option in $options; do
    [[ " ${COMP_WORDS[*]:2:place-2} " == *" $option "* ]] || offered+=" $option"
  done
  mapfile -t COMPREPLY < <(compgen -W "$offered" -- "$word")
}
complete -F _sift sift

# Offers the words of the mission that stands on the line of sift-words, or alone in this folder, for the last name of a list
# with commas.
_sift_plotted() {
  local word=$1 before='' other mission='' here=(*.toml) names=()
  [[ $word == *,* ]] && before=${word%,*},
  [ "${#here[@]}" -eq 1 ] && mission=${here[0]}
  for other in "${COMP_WORDS[@]:1}"; do
    [[ $other == *.toml ]] && mission=$other
  done
  mapfile -t names < <("${COMP_WORDS[0]}" --names "$mission" 2>/dev/null)
  mapfile -t COMPREPLY < <(compgen -P "$before" -W "${names[*]}" -- "${word##*,}")
  compopt -o nospace 2>/dev/null
}

_sift_tool() {
  local word=${COMP_WORDS[COMP_CWORD]} options=--help
  case ${COMP_WORDS[COMP_CWORD - 1]} in
    --kinds) mapfile -t COMPREPLY < <(compgen -W 'wrong silence two-faces flip stuck offset drift intermittent' -- "$word"); return ;;
    --permanent | --transient | --lasts | --tick | --hours | --weight | --units | --vary | --causes) COMPREPLY=(); return ;;
    --by) mapfile -t COMPREPLY < <(compgen -W 'slot unit way' -- "$word"); return ;;
    --plot) [[ ${COMP_WORDS[0]##*/} == sift-odds ]] || { _sift_plotted "$word"; return; } ;;
    --from | --limit | --batch | --jobs | --sshlogin | --replay | --frames | --seconds | --size) COMPREPLY=(); return ;;
  esac
  case ${COMP_WORDS[0]##*/} in
    sift-odds) options+=' --permanent --transient --lasts --frame --tick --hours --runs --weight --units --vary --by --causes --plot --json' ;;
    sift-picture) options+=' --text --frames --schedule --sweep --before' ;;
    sift-place) options+=' --write --seconds --picture --sweep --to-csv --from-csv --size --program' ;;
    sift-sweep) options+=' --single --pairs --kinds --from --limit --out --program --batch --jobs --sshlogin --resume --overwrite --replay --values --keep --random --number --require --reduce --compare --slurm --json --junit' ;;
    sift-words) options+=' --json --plot --names --unjudged' ;;
  esac
  if [[ $word == -* ]]; then
    mapfile -t COMPREPLY < <(compgen -W "$options" -- "$word")
  else
    compopt -o filenames 2>/dev/null
    mapfile -t COMPREPLY < <(compgen -f -- "$word")
  fi
}
complete -F _sift_tool sift-compare sift-explain sift-lint sift-odds sift-picture sift-place sift-sweep sift-words
