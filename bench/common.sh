# Shared by the benchmarks. A script sources it with `. "$(dirname "$0")/common.sh"` and continues in the top folder
# of the repository, with a folder of its own in $work.
set -euo pipefail
cd "$(dirname "${BASH_SOURCE[0]}")/.."
. bench/modules.sh
work=$(mktemp -d)
trap 'rm -rf "$work"' EXIT

# copy_crate CRATE: copies a crate to $work/top. Its existing proofs are linked, and are valid there as long as its text
# and that of the crates below it are unchanged; the others are proved there.
copy_crate() {
  local crate=$1 part
  mkdir -p "$work/top/crates/$crate/out"
  for part in src specs proofs; do
    if [ -d "crates/$crate/$part" ]; then cp -r "crates/$crate/$part" "$work/top/crates/$crate/"; fi
  done
  if [ -d "crates/$crate/out/rlib" ]; then
    cp -al "crates/$crate/out/rlib" "$work/top/crates/$crate/out/" 2>/dev/null ||
      cp -a "crates/$crate/out/rlib" "$work/top/crates/$crate/out/"
  fi
}

# crates_of CRATE..: these crates and all their dependencies in crates.txt, in its order.
crates_of() {
  awk -F: -v wanted="$*" '
    !/^#/ && NF > 1 { below[$1] = $2; order[++lines] = $1 }
    END {
      count = split(wanted, waiting, " ")
      for (at = 1; at <= count; at++) found[waiting[at]]
      for (at = 1; at <= count; at++) {
        size = split(below[waiting[at]], names, " ")
        for (i = 1; i <= size; i++)
          if (names[i] in below && !(names[i] in found)) {
            found[names[i]]
            waiting[++count] = names[i]
          }
      }
      for (at = 1; at <= lines; at++) if (order[at] in found) print order[at]
    }' crates.txt
}

# run_program NAME INPUT CRATE..: proves, builds and runs the program on standard input, over copies of these
# crates and those below them, and with INPUT as its own standard input. The modules that it names are those of modules.sh. Its output is
# printed; that of the proof only if it fails.
run_program() {
  local name=$1 input=$2 crate module
  shift 2
  mkdir -p "$work/top/crates/$name/src"
  cat >"$work/top/crates/$name/src/main.rt"
  sed -n 's/^mod \([a-z_]*\);$/\1/p' "$work/top/crates/$name/src/main.rt" | while read -r module; do
    "module_$module" >"$work/top/crates/$name/src/$module.rt"
  done
  git init -q "$work/top"
  for crate in $(crates_of "$@"); do
    copy_crate "$crate"
    grep "^$crate:" crates.txt
  done >"$work/top/crates.txt"
  echo "$name: $*" >>"$work/top/crates.txt"
  cp HANDLES "$work/top/"
  if ! (cd "$work/top/crates/$name" && rt run <"$input" 2>"$work/log"); then
    tail -n 40 "$work/log" >&2
    return 1
  fi
}

# stream FILE [FOLDER]: makes a file of 1,000,000 FIBs: those of real_fic.fib of the folder, or if that is missing
# those of the example configuration at the counts of a second, repeated
stream() {
  local file=$1 samples=${2:-bench/samples} count
  if [ -r "$samples/real_fic.fib" ]; then
    cat "$samples/real_fic.fib" >"$work/part"
  else
    for ((count = 0; count < 42; count++)); do
      ./dabplan frame examples/one_programme.rec --ensemble E1C5 --count "$count"
    done | xxd -r -p >"$work/part"
  fi
  while [ "$(stat -c %s "$work/part")" -lt 32000000 ]; do
    cat "$work/part" "$work/part" >"$work/more"
    mv "$work/more" "$work/part"
  done
  head -c 32000000 "$work/part" >"$file"
  rm "$work/part"
}

# best RUNS COMMAND..: the shortest of this many runs, in microseconds
best() {
  local runs=$1 least=999999999 run start end
  shift
  for ((run = 0; run < runs; run++)); do
    start=$(date +%s%N)
    "$@" >/dev/null
    end=$(date +%s%N)
    if [ $(((end - start) / 1000)) -lt "$least" ]; then least=$(((end - start) / 1000)); fi
  done
  echo "$least"
}

# best_of_both RUNS FIRST SECOND: the shortest of this many runs of each of two commands, alternating, in microseconds.
# FIRST and SECOND name the arrays that hold the commands.
best_of_both() {
  local runs=$1 least_first=999999999 least_second=999999999 run took
  local -n first=$2 second=$3
  for ((run = 0; run < runs; run++)); do
    took=$(best 1 "${first[@]}")
    if [ "$took" -lt "$least_first" ]; then least_first=$took; fi
    took=$(best 1 "${second[@]}")
    if [ "$took" -lt "$least_second" ]; then least_second=$took; fi
  done
  echo "$least_first $least_second"
}

# thousandths NUMBER: a number of thousandths with a decimal point, as 1.234
thousandths() {
  echo "$(($1 / 1000)).$(printf %03d $(($1 % 1000)))"
}
