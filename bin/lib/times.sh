# shellcheck shell=sh
# Sourced by bin/gate-times and bin/test: what the checks of a gate that runs take. Times are looked up once a second, so up to a second of each check is lost.

# A line for each check that runs: its process with the tick at which it began, the crate, what of it is checked, and its processor time. The time is in
# ticks, with that of the processes that it has begun.
look() {
  for process in $(pgrep -s 0 -f 'bin/rattle (build|check) '); do
    words=$(tr '\0' ' ' <"/proc/$process/cmdline") && place=$(readlink "/proc/$process/cwd") &&
      echo "$place $(cat "/proc/$process/stat") / $words"
  done 2>/dev/null | awk '
    {
      crate = ""
      for (i = 1; i < NF; i++) if ($i == "--crate-name") crate = $(i + 1)
      if (crate == "") next
      parent[$2] = $5
      began[$2] = $23
      of[$2] = crate " " (/_tests\.o/ ? "tests" : $1 ~ /rt-edit/ ? "edits" : "proof")
      ticks[$2] = $15 + $16 + $17 + $18
    }
    END {
      for (it in ticks) {
        first = it
        while (parent[first] in ticks) first = parent[first]
        sum[first] += ticks[it]
      }
      for (it in sum) print it "." began[it], of[it], sum[it]
    }'
}

# Appends such lines to the file $1, once a second, until it is ended.
watch_checks() {
  while :; do
    look >>"$1"
    sleep 1
  done
}

# Prints the five dearest of the steps that the file $1 has: a crate's proof, the proof of its tests, or its edits, with processor minutes.
print_dearest_steps() {
  [ -s "$1" ] || return 0
  awk -v tick="$(getconf CLK_TCK)" '
    { if ($4 > ticks[$1]) ticks[$1] = $4; of[$1] = $2 " " $3 }
    END {
      for (it in ticks) sum[of[it]] += ticks[it]
      for (step in sum) printf "%.1f %s\n", sum[step] / tick / 60, step
    }' "$1" | sort -rn | head -n 5 | awk '
    { printf "%s%s %s %s", (NR == 1 ? "dearest: " : ", "), $2, ($3 == "proof" ? "itself" : $3), $1 }
    END { if (NR) print " processor minutes" }'
}
