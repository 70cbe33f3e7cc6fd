# Which words the programs take, by options.txt: for the launcher, which answers others before it builds anything. The caller
# sets top to the folder that crates.txt stands in.

# is_value VALUE KIND..: whether the value is one of these words, or a number from the one to the other in LOW..HIGH
is_value() {
  local value=$1 kind number
  shift
  for kind; do
    if [[ $kind == *..* ]]; then
      [[ $value =~ ^([-+]?)0*([0-9]{1,10})$ ]] || continue
      number=$((${BASH_REMATCH[1]}${BASH_REMATCH[2]}))
      [ "$number" -ge "${kind%..*}" ] && [ "$number" -le "${kind#*..}" ] && return
    elif [ "$value" = "$kind" ]; then
      return
    fi
  done
  return 1
}

# fault_in CRATE WORDS..: says what is wrong with the words, if the program of that crate refuses them by its options
fault_in() {
  local LC_ALL=C crate=$1 of name word value takes
  local -A kinds=() given=()
  shift
  while read -r of name value; do
    [ "$of" != "$crate" ] || kinds[--$name]=$value
  done <"$top/crates/options.txt"
  while [ $# -gt 0 ]; do
    word=$1
    name=${word%%=*}
    shift
    if [ "$word" = -- ] && [ $# = 0 ]; then
      return 1
    elif [ -z "$name" ] || [ -z "${kinds[$name]+known}" ]; then
      printf '%q is no option\n' "$word"
      return
    elif [ -n "${given[$name]-}" ]; then
      printf '%s stands twice\n' "$name"
      return
    fi
    given[$name]=yes
    takes=${kinds[$name]// /, }
    takes=${takes/../ to }
    if [ -z "$takes" ]; then
      [ "$word" = "$name" ] && continue
      printf '%s takes no value\n' "$name"
      return
    elif [ "$word" != "$name" ]; then
      value=${word#*=}
    elif [ $# -gt 0 ] && [[ $1 != -?* ]]; then
      value=$1
      shift
    else
      printf '%s has no value; it takes %s\n' "$name" "$takes"
      return
    fi
    if ! is_value "$value" ${kinds[$name]}; then
      printf '%s takes %s, and not %q\n' "$name" "$takes" "$value"
      return
    fi
  done
  return 1
}
