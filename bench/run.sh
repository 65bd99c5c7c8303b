#!/usr/bin/env bash
# Measures the built program, crates/px_main/out/px_main or the one that is named, at a size, twice
# it and four times it: the processor's seconds of each, the least of fifteen runs, and what each
# doubling costs.
set -eu
. "$(dirname "$0")/measure.sh"

# A row: its name, what makes its files of a size, and three sizes.
row() {
  local -A best=()
  local size time
  # In rounds, so that a slow minute of the machine strikes all sizes alike.
  for _ in 1 2 3 4 5; do
    for size in $3 $4 $5; do
      $2 "$size"
      time=$(least run job)
      [ "$time" -ge "${best[$size]:-$((time + 1))}" ] || best[$size]=$time
    done
  done
  awk -v name="$1" -v a="${best[$3]}" -v b="${best[$4]}" -v c="${best[$5]}" \
    -v sizes="$3 $4 $5" -v answer="$(head -n 1 text)" 'BEGIN {
      printf "%-36s %-16s", name, sizes
      printf "%7.3f %7.3f %7.3f", a / 1000, b / 1000, c / 1000
      printf " %6s %6s  %s\n", ratio(a, b), ratio(b, c), answer
    }
    # Below 10 milliseconds the clock is too coarse.
    function ratio(less, more) { return less < 10 ? "-" : sprintf("%.2f", more / less) }'
}

add='class Main { long n; public long add(long x) { long y = x * 3; n = n + y; return n - 1; } }'

# Methods of 2,480 statements, which is 10 KB each.
statements() {
  local body k
  body=$(repeat 'x=x;' 2480)
  { echo 'class Main { long x;'; for ((k = 0; k < $1; k++)); do echo "void m$k(){$body}"; done; echo '}'; } >program
  : >job
}

methods() {
  { echo 'class Main {'; for ((k = 0; k < $1; k++)); do echo "public void m$k() { }"; done; echo '}'; } >program
  : >job
}

locals() {
  { echo 'class Main { void f() { long l0 = 0;'; for ((k = 1; k < $1; k++)); do echo "long l$k = l$((k - 1));"; done; echo '} }'; } >program
  : >job
}

calls() { echo "$add" >program; lines 'call 1 add 4' 64 | head -n "$1" >job; }

# 2,000 calls of the last of so many methods.
last_of() { methods "$1"; lines "call 1 m$(($1 - 1))" 64 | head -n 2000 >job; }

long_calls() {
  echo "class Main { long x; public void f() { $(repeat 'x=x;' 2480) } }" >program
  lines 'call 1 f' 64 | head -n "$1" >job
}

spaces() { echo "$add" >program; fill ' ' "$1" >job; }
space_lines() { echo "$add" >program; lines ' ' "$1" >job; }
comments() { echo "$add" >program; lines '# a comment' "$1" >job; }
comment() { echo "$add" >program; fill '#' "$1" >job; }

# The piece over and over, where an expression begins.
pieces() { { echo 'class Main { public long f() { return'; fill "$piece" "$1"; } | head -c $(($1 * 1024)) >program; : >job; }

printf '%-36s %-16s%7s %7s %7s %6s %6s  %s\n' case sizes first second third ratio ratio answer
row 'statements, by 10 KB methods' statements 26 52 104
row 'methods' methods 500 1000 2000
row 'locals of a method' locals 400 800 1600
row 'calls' calls 500 1000 2000
row 'calls of 2,480 statements' long_calls 500 1000 2000
row '2,000 calls of the last of methods' last_of 500 1000 2000
row 'job: one line of spaces, KiB' spaces 4096 8192 16384
row 'job: lines of a space, KiB' space_lines 4096 8192 16384
row 'job: comment lines, KiB' comments 4096 8192 16384
row 'job: one comment, KiB' comment 4096 8192 16384
for piece in '/*' '/* ' '"' '//' a $'\x80' '(' - '- ' '{' 0; do
  row "program: ${piece/$'\x80'/byte 80} over and over, KiB" pieces 256 512 1024
done
