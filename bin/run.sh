# What bin/mdp, bin/check and bin/try share: it runs a program with the words given. The caller has set
#   name      its own name in bin/
#   crate     the program's crate
#   took      what is known of the time of a first build
#   unproved  something, where the program is compiled without its proofs, and proved, the program of bin/ that proves them
#   about     what it does, for --help
top=$(cd "$(dirname "${BASH_SOURCE[0]}")/.." && pwd)
built=$top/crates/$crate/out/$crate
kept=$top/out/$name

say() { echo "bin/$name: $*" >&2; }

# ---- help

case $crate in
  mdp_checker)
    usage='MODEL ROWS CERT'
    meanings='ROWS is exact or scaled.'
    ;;
  *)
    usage='solve MODEL ROWS DIR reach LABEL
solve MODEL ROWS DIR until A B
solve MODEL ROWS DIR reward NAME LABEL
solve MODEL ROWS DIR mean NAME
bounds MODEL ROWS DIR reach LABEL DIGITS
bounds MODEL ROWS DIR until A B DIGITS
bounds MODEL ROWS DIR reward NAME LABEL DIGITS
bounds MODEL ROWS DIR mean NAME DIGITS
bounds MODEL ROWS DIR discount NAME FACTOR DIGITS
bounds MODEL ROWS DIR until A B STEPS DIGITS
bounds MODEL ROWS DIR total NAME STEPS DIGITS
bounds MODEL ROWS DIR witness LABEL THRESHOLD
bounds MODEL ROWS DIR witness until A B THRESHOLD
witness MODEL ROWS DIR LABEL THRESHOLD
witness MODEL ROWS DIR until A B THRESHOLD
check MODEL ROWS CERT
chain MODEL ROWS POLICY
policy MODEL ROWS POLICY reach LABEL
policy MODEL ROWS POLICY until A B
horizon MODEL ROWS DIR A B STEPS
total MODEL ROWS DIR NAME STEPS
curve MODEL ROWS DIR until A B STEPS DIGITS
curve MODEL ROWS DIR total NAME STEPS DIGITS
discount MODEL ROWS DIR NAME FACTOR
discount-check MODEL ROWS CERT
bounds-check MODEL ROWS CERT
drill NUMBER LAYERS WIDTH'
    meanings='ROWS is exact or scaled, DIR is max or min. The table of README.md says what each command answers.'
    ;;
esac

# usage_of KIND COMMAND: how the program is used, for a refusal `words KIND`
usage_of() {
  case $1 in
    command | encoding) cat <<<"$usage" ;;
    *) [ "$crate" = mdp_checker ] && cat <<<"$usage" || grep "^$2 " <<<"$usage" ;;
  esac | sed "s|^|  bin/$name |"
}

help() {
  echo "$about"
  echo
  usage_of command
  echo "  $meanings"
  echo
  echo "bin/$name --help prints this, bin/$name --version the commit of the sources and the toolchain."
  echo "Every answer and status: docs/answers.md."
}

# version: the commit of the sources, where there is one, and the toolchain
version() {
  local commit='no commit'
  commit=$(git -C "$top" rev-parse HEAD 2>/dev/null) || commit='no commit'
  [ -z "$(git -C "$top" status --porcelain --untracked-files=no 2>/dev/null)" ] || commit+=', changed since'
  echo "bin/$name $commit"
  rt version 2>/dev/null || echo 'no toolchain on the PATH'
}

case $1 in
  --help | -h) help; exit 0 ;;
  --version) version; exit 0 ;;
esac

# ---- the build

# crates: the program's crate, those of this repository that it stands on, and those that these stand on; crates.txt lists the lowest first
crates() {
  tac "$top/crates.txt" | awk -F '[: ]+' -v program="$crate" '
    BEGIN { needed[program] }
    $1 in needed { print $1; for (i = 2; i <= NF; i++) if ($i ~ /^mdp_/) needed[$i] }'
}

is_fresh() {
  local folders=() each folder
  for each in $(crates); do
    for folder in src specs proofs; do
      [ -d "$top/crates/$each/$folder" ] && folders+=("$top/crates/$each/$folder")
    done
  done
  [ -x "$1" ] && [ -z "$(find "$top/crates.txt" "${folders[@]}" -newer "$1" -print -quit)" ]
}

# keep FILE: keeps what is built, as new as that file
keep() {
  mkdir -p "$top/out" && cp "$built" "$kept.$$" && touch -r "$1" "$kept.$$" && mv "$kept.$$" "$kept" && return
  rm -f "$kept.$$"
  say "the program could not be kept in $top/out."
  exit 71
}

# need TOOL WHAT: ends where a tool is missing
need() {
  command -v "$1" >/dev/null && return
  say "the program isn't built yet, and to build it $1 is needed, $2. It isn't on the PATH."
  exit 70
}

# follow LOG: says each time a crate is done, and each minute, how far the build is; tools/build writes a line 'crate NAME: N seconds' for each
follow() {
  local all count=0 now minute=0 last
  all=$(crates | wc -l)
  while sleep 1 && kill -0 $$ 2>/dev/null; do
    now=$(grep -c '^crate .* seconds$' "$1")
    [ "$now" = "$count" ] && [ "$((SECONDS / 60))" = "$minute" ] && continue
    count=$now minute=$((SECONDS / 60))
    last=$(sed -n 's/^crate \([a-z_]*\): .* seconds$/, \1 last/p' "$1" | tail -n 1)
    say "crates done: $count of at most $all$last; $SECONDS seconds so far"
  done
}

build() {
  need python3 "which tools/build is written in"
  need rt "the toolchain that README.md names"
  say "building the program. This proves it and all crates below it: $took."
  say "A later one proves only what changed and the crates above it."
  log=$(mktemp)
  began=$(mktemp)
  follow "$log" &
  "$top/tools/build" "$crate" >"$log" 2>&1 </dev/null
  status=$?
  kill "$!" && wait "$!" 2>/dev/null
  if [ "$status" != 0 ]; then
    tail -n 20 "$log" >&2
    say "the program could not be built; $log has the whole output."
    exit 70
  fi
  keep "$began"
  rm -f "$log" "$began"
}

# compile: compiles the program without its proofs, where these sources aren't yet
compile() {
  need python3 "which tools/compile is written in"
  kept=$("$top/tools/compile" "$crate") || exit 70
  say "these sources are not proved in this run, and run slowly, with checks; bin/$proved proves them."
}

# ---- the run

# advice SECTION KEY: the cells behind the one that begins with KEY, in that section of docs/answers.md
advice() {
  awk -F ' *[|] *' -v name="$name" -v section="$1" -v key="\`$2" '
    /^#/ { inside = index($0, section) }
    inside { for (i = 2; i < NF; i++) if (index($i, key "`") == 1 || index($i, key " ") == 1) {
      text = $(i + 1) ($(i + 2) == "" ? "" : ": " $(i + 2))
      gsub(/`|\[|\]\([^)]*\)/, "", text)
      print "bin/" name ": " text " (docs/answers.md)"
      exit
    } }' "$top/docs/answers.md" >&2
}

# names MODEL: the labels and the reward names of a model that was read, each once, and no more than 40 of either
names() {
  [ -f "$1" ] && LC_ALL=C awk -v name="$name" '
    function add(kind, word) {
      gsub(/[\001-\037\177]/, "?", word)
      if (word ~ /[ ,]/) word = "\"" word "\""
      if (!((kind, word) in seen)) { seen[kind, word]; if (++count[kind] <= 40) all[kind] = all[kind] (count[kind] > 1 ? ", " : "") word }
    }
    function say(kind, what) {
      print "bin/" name ": the model has " (count[kind] ? "the " what " " all[kind] : "no " what) (count[kind] > 40 ? ", and " count[kind] - 40 " more" : "")
    }
    { sub(/\r$/, ""); sub(/^[ \t]+/, ""); sub(/[ \t]+$/, "") }
    /^\/\// { next }
    /^@/ { rewards = $0 == "@reward_models"; next }
    rewards { rewards = 0; for (i = 1; i <= NF; i++) add("reward", $i) }
    /^state[ \t]/ {
      sub(/^state[ \t]+[0-9]+[ \t]*(\[[^]]*\])?[ \t]*/, "")
      while (match($0, /^("[^"]*"|[^ \t"]+)/)) {
        word = substr($0, 1, RLENGTH)
        gsub(/"/, "", word)
        add("label", word)
        $0 = substr($0, RLENGTH + 1)
        sub(/^[ \t]+/, "")
      }
    }
    END { if (!count["reward"]) add("reward", "-"); say("label", "labels"); say("reward", "reward names") }' "$1" >&2
}

# explain WORDS TEXT: what to do with a text, where it is a refusal; WORDS are those of the program, and TEXT is the last one
explain() {
  local first second place kind command=$1 model=$2
  [ "$crate" = mdp_checker ] && model=$1
  read -r first second place kind <<<"${!#}"
  case $first in
    model) advice 'Lines of a model' "$kind" ;;
    cert | policy) advice 'Lines of a certificate' "$kind" ;;
    memory | below | undecided) advice 'Every answer' "$first" ;;
    denied | query | too-wide | read-fault | long) advice 'Every answer' "$first $second" ;;
    words)
      advice 'Every answer' "$first $second"
      usage_of "$second" "$command" >&2
      echo "  $meanings" >&2
      ;;
  esac
  case "$first $second" in 'query label' | 'query reward') names "$model" ;; esac
}

# show_seconds: how long the program has been at work, from the third second on, in one line of the terminal
show_seconds() {
  sleep 2
  while printf '\rbin/%s: at work for %d seconds ' "$name" "$SECONDS" >&2; do sleep 1; done
}

# pass_on WORDS: copies what the program writes, and explains it by its first line. Ends with 7 where it can't be written. A signal is for the
# program alone: behind it this one ends
pass_on() {
  local first='' feed='' clock=''
  SECONDS=0
  if [ -t 2 ]; then show_seconds >/dev/null & clock=$!; fi
  trap '' HUP INT TERM
  IFS= read -r first && feed=$'\n'
  if [ -n "$clock" ]; then { kill "$clock" && wait "$clock"; } 2>/dev/null; printf '\r\033[K' >&2; fi
  { printf '%s%s' "$first" "$feed" && cat; } 2>/dev/null || return 7
  explain "$@" "$first"
  return 0
}

if [ -n "$unproved" ]; then
  compile
elif ! is_fresh "$kept"; then
  if is_fresh "$built"; then keep "$built"; else build; fi
fi
exec 3> >(pass_on "$@")
copier=$!
"$kept" "$@" <&0 >&3 3>&- &
program=$!
exec 3>&-
trap 'kill "$program" 2>/dev/null' HUP INT TERM
wait "$program"
status=$?
while kill -0 "$program" 2>/dev/null; do
  wait "$program"
  status=$?
done
wait "$copier" || status=7
[ -n "$unproved" ] && [ "$status" -gt 128 ] && say "the program was stopped, by a check of the compiled sources that failed or by a signal (status $status)"
[ "$status" = 7 ] && say "standard output couldn't be written: look at where it goes, a full disk or a closed pipe (docs/answers.md)"
exit "$status"
