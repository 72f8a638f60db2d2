# What `dabplan` and `release/make` share: which program runs the commands, what it is made of, and how it is built. A
# script sets `top` to the folder of the repository, as a path from the root, and takes this in by `. "$top/release/sources.sh"`.

own=$top/crates/dabplan/out/dabplan
# The sum of the sources that one's own program was built from.
own_sources=$own.sources
released=$top/release/dabplan
statement=$top/release/BUILT_FROM
# The sum of the sources, behind a sum of what the system says of each of their files.
remembered=$top/out/sources.sum

# The crates of this repository that the program is made of: itself, and all that crates.txt names from there on.
program_crates() {
  awk -F: '
    !/^#/ { below[$1] = $2 }
    END {
      waiting[count = 1] = "dabplan"
      found["dabplan"]
      for (at = 1; at <= count; at++) {
        print waiting[at]
        size = split(below[waiting[at]], names, " ")
        for (i = 1; i <= size; i++)
          if (names[i] in below && !(names[i] in found)) {
            found[names[i]]
            waiting[++count] = names[i]
          }
      }
    }' "$top/crates.txt"
}

# The SHA-256 of what the program's bytes come from: of the lines that sha256sum prints of crates.txt and of every file of src/
# of the program's crates, by their paths from the top, which are sorted byte by byte. Definitions and proofs change no byte.
sum_of_sources() {
  (
    cd "$top"
    {
      echo crates.txt
      for crate in $(program_crates); do
        if [ -d "crates/$crate/src" ]; then find "crates/$crate/src" -type f; fi
      done
    } | LC_ALL=C sort | tr '\n' '\0' | xargs -0 sha256sum | sha256sum | cut -d ' ' -f 1
  )
}

# states WORD VALUE: whether BUILT_FROM says this of `kit`, `sources` or `program`.
states() {
  local word value
  while IFS=': ' read -r word value; do
    if [ "$word" = "$1" ]; then
      [ "$value" = "$2" ]
      return
    fi
  done <"$statement"
  return 1
}

# A sum of the path, size, moments of change and number of each file of the sources and the release, and of the folders that
# hold them. No two copies of a file have the same, and no change leaves it as it was.
sum_of_listing() {
  find "$top/crates.txt" "$top/crates" "$top/release" -path '*/out' -prune -o -printf '%p %s %T@ %C@ %i\n' | sha256sum
}

# Sets `sum` to the sum of the sources: the remembered one, if no file was changed, made or removed since; else it is taken
# from their contents, and remembered for later calls where that can be done.
find_sum() {
  local listing known=
  listing=$(sum_of_listing)
  sum=
  if [ -f "$remembered" ]; then { read -r known && read -r sum; } <"$remembered" || true; fi
  if [ "$known" != "$listing" ] || [ -z "$sum" ]; then
    sum=$(sum_of_sources)
    remember "$listing"
  fi
}

# Remembers the sum of the sources, beside its place first. Where nothing can be written there, it is taken anew next time.
remember() {
  local new=$remembered.$$
  mkdir -p "$top/out" 2>/dev/null || return 0
  if { printf '%s\n%s\n' "$1" "$sum" >"$new"; } 2>/dev/null; then
    mv -f "$new" "$remembered" 2>/dev/null || rm -f "$new"
  fi
}

# Whether a build of one's own is there that was made of these sources.
is_own_built() {
  local built=
  [ -x "$own" ] && [ -f "$own_sources" ] && { read -r built <"$own_sources" || true; } && [ "$built" = "$sum" ]
}

# Whether the released program is the one that these sources give, as BUILT_FROM says.
is_released_current() {
  local of_program
  [ -x "$released" ] && [ -f "$statement" ] && states sources "$sum" || return 1
  of_program=$(sha256sum <"$released")
  states program "${of_program%% *}"
}

# Proves and builds the program, crates side by side, and says after each crate how far it is.
build() {
  local log=$1 job proved=0 now all
  all=$(program_crates | wc -l)
  (
    cd "$top/crates/dabplan"
    rt all check --jobs "$(nproc)"
    exec rt run -- --help
  ) >"$log" 2>&1 </dev/null &
  job=$!
  while kill -0 "$job" 2>/dev/null; do
    sleep 1
    now=$(grep -c '^== ' "$log" || true)
    if [ "$now" -gt "$proved" ]; then
      proved=$now
      echo "dabplan: $(sed -n 's/^== //p' "$log" | tail -n 1) is proved, $proved of $all crates" >&2
    fi
  done
  wait "$job"
}

# Builds the program of one's own, or says why it can't be built, and ends.
build_own() {
  local log
  if ! command -v rt >/dev/null; then
    echo "dabplan: release/dabplan was not built from these sources, and there is no rt to build the program with" >&2
    exit 1
  fi
  echo "dabplan: these sources are not those of release/dabplan: proving and building the program;" \
    "from nothing that takes more than half an hour on four cores" >&2
  log=$(mktemp)
  if ! build "$log"; then
    cat "$log" >&2
    rm -f "$log"
    echo "dabplan: not built" >&2
    exit 1
  fi
  rm -f "$log"
  echo "$sum" >"$own_sources"
}

# Sets `program` to the program to run: one's own build where it was made of these sources; else the released one where
# it was; else it is built first.
find_program() {
  find_sum
  if is_own_built; then
    program=$own
  elif is_released_current; then
    program=$released
  else
    build_own
    program=$own
  fi
}
