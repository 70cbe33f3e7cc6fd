# What a program is made of, for the scripts of this repository, which set top to the folder that crates.txt stands in.

# crates_of CRATE: a line for the crate and for each that it stands on: that of crates.txt, word by word.
crates_of() {
  local -A uses=() found=()
  local line name below next=("$1")
  while IFS= read -r line || [ -n "$line" ]; do
    line=${line%%#*}
    [[ $line == *:* ]] || continue
    name=${line%%[:[:space:]]*}
    uses[$name]=${line#"$name"}
  done <"$top/crates.txt"
  while [ ${#next[@]} -gt 0 ]; do
    name=${next[-1]}
    unset 'next[-1]'
    [ -n "${uses[$name]+known}" ] && [ -z "${found[$name]-}" ] || continue
    read -ra below <<<"${uses[$name]}"
    found[$name]="$name ${below[*]}"
    next+=("${below[@]}")
  done
  printf '%s\n' "${found[@]}" | LC_ALL=C sort
}

# sources_of CRATE: one sum of what the crate and those below it are made of: code, definitions and proofs, by path and
# contents, and who uses whom. Tests do not count, nor anything else that lies in a crate's folder.
sources_of() {
  local lines places=() part
  mapfile -t lines < <(crates_of "$1")
  for part in src specs proofs; do
    places+=("${lines[@]/%[[:space:]]*//$part}")
  done
  {
    printf '%s\n' "${lines[@]}"
    cd "$top/crates" && find "${places[@]}" \( -path '*/src/tests' -o -path '*/proofs/tests' \) -prune -o \
      -type f \( -name '*.rt' -o -name '*.antt' \) ! -path '*/src/tests.rt' -print0 2>/dev/null |
      LC_ALL=C sort -z | xargs -0 sha256sum
  } | sha256sum | cut -c 1-64
}

# What lies in dist/x86_64-linux: the name of each file, the crate that it is made of, and where a build leaves it.
made_files() {
  printf '%s\n' \
    'mooringakee mooringakee crates/mooringakee/out/mooringakee' \
    'mooringakee-stress stress crates/stress/out/stress'
}

# note_build CRATE FILE: notes that the file in the crate's out/, where rt has just left it, was built of these sources, which
# are all older; the launcher then takes it for what it is. Fails where there is no such file.
note_build() {
  local note=$top/${2%/*}/built-from
  [ -f "$top/$2" ] || return
  if [ ! -f "$note" ]; then
    [ -z "$(find "$top/crates.txt" "$top/crates" -name out -prune -o \
      \( -name '*.rt' -o -name '*.antt' \) -newer "$top/$2" -print -quit)" ] || return
    sources_of "$1" >"$note"
  fi
  [ "$(cat "$note")" = "$(sources_of "$1")" ]
}
