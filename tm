#!/usr/bin/env bash
# Builds the proved program where it isn't built yet or a source is newer, and runs it with the words as
# given, from the caller's folder. Crates are proved side by side, as many as there are processors and memory
# (or TM_JOBS); standard error says how many of them are, and for how long it has been at it.
top=$(cd "$(dirname "${BASH_SOURCE[0]}")" && pwd) || exit 1
program=$top/crates/tm/out/tm

is_current() {
  [ -x "$program" ] && [ -z "$(find "$top/crates.txt" "$top/crates" \( -name out -o -name must-fail \) -prune -o -type f -newer "$program" -print -quit)" ]
}

say() { echo "tm: $*" >&2; }

# How long it has been since the first crate was begun.
elapsed() { echo "$((SECONDS / 60)) min $((SECONDS % 60)) s"; }

# One crate a processor, where there are 4 GiB for each.
at_once() {
  local processors memory
  processors=$(nproc 2>/dev/null || echo 1)
  memory=$(awk '/^MemAvailable:/ { print int($2 / 4194304) }' /proc/meminfo 2>/dev/null)
  [ "${memory:-$processors}" -lt "$processors" ] && processors=$memory
  echo "$((processors > 1 ? processors : 1))"
}

# Tells of each crate that is done, and every 30 seconds that it goes on. The lines come from `rt all check`,
# which begins what it says of a crate with "== NAME".
tell_of_crates() {
  local line total=$1 done=0
  while :; do
    if IFS= read -r -t 30 line; then
      case $line in
        "== summary") ;;
        "== "*) say "crate $((++done)) of $total is done after $(elapsed): ${line#== }" ;;
      esac
    elif [ $? -gt 128 ]; then
      say "$done of $total crates are done, after $(elapsed)"
    else
      break
    fi
  done
}

# How many crates the program stands on, itself among them; those of the tests are not.
number_of_crates() {
  awk -F: '
    /^[a-z]/ { split($1, words, " "); uses[words[1]] = $2 }
    function reach(name,  names, count, at) {
      if (!(name in uses) || name in reached) return
      reached[name]
      total++
      count = split(uses[name], names, " ")
      for (at = 1; at <= count; at++) reach(names[at])
    }
    END { reach("tm"); print total }' "$top/crates.txt"
}

# What fails here fails once more, and is told, when the program is built.
prove_side_by_side() {
  local total jobs=${TM_JOBS:-$(at_once)}
  total=$(number_of_crates)
  say "proving $total crates, $jobs at a time; this takes some minutes"
  tell_of_crates "$total" < <(cd "$top/crates/tm" && rt all check --jobs "$jobs" 2>&1 </dev/null)
}

build() {
  local log
  log=$(mktemp) || exit 1
  prove_side_by_side
  say "building the program"
  if ! (cd "$top/crates/tm" && rt run -- --version) >"$log" 2>&1 </dev/null; then
    cat "$log" >&2
    say "the program is not proved or not built"
    rm -f "$log"
    exit 1
  fi
  rm -f "$log"
  touch "$program"
  say "the program is proved and built, after $(elapsed)"
}

is_current || { SECONDS=0; build; }
exec "$program" "$@"
