#!/usr/bin/env bash
# Measures `solo` beside `run` over the same calls, by the built program, crates/px_main/out/px_main or the
# one that is named: the processor's seconds of both at 500, 1,000 and 2,000 calls, the least of fifteen
# runs, how many times those of `run` those of `solo` are, and what each doubling costs `solo`. Ends with
# status 1 where a doubling costs more than 2.3 times as much.
set -eu
. "$(dirname "$0")/measure.sh"
failed=0

# A row: its name, and what makes the file `program` and the lines of a part in the file `part`.
row() {
  local -A ran=() split=()
  local size time
  $2
  # In rounds, so that a slow minute of the machine strikes all sizes and both commands alike.
  for _ in 1 2 3 4 5; do
    for size in 500 1000 2000; do
      lines 'call 1 f 7' 64 | head -n "$size" >job
      cat part job >split
      time=$(least run job)
      [ "$time" -ge "${ran[$size]:-$((time + 1))}" ] || ran[$size]=$time
      time=$(least solo split)
      [ "$time" -ge "${split[$size]:-$((time + 1))}" ] || split[$size]=$time
    done
  done
  awk -v name="$1" -v a="${ran[500]}" -v b="${ran[1000]}" -v c="${ran[2000]}" \
    -v x="${split[500]}" -v y="${split[1000]}" -v z="${split[2000]}" -v answer="$(grep '^end' text | tail -n 1)" 'BEGIN {
      printf "%-32s", name
      printf " %7.3f %7.3f %7.3f", a / 1000, b / 1000, c / 1000
      printf " %7.3f %7.3f %7.3f", x / 1000, y / 1000, z / 1000
      printf " %6s %6s %6s  %s\n", ratio(c, z), ratio(x, y), ratio(y, z), answer
      exit slow(x, y) || slow(y, z)
    }
    # Below 10 milliseconds the clock is too coarse.
    function ratio(less, more) { return less < 10 ? "-" : sprintf("%.2f", more / less) }
    function slow(less, more) { return less >= 10 && more > 2.3 * less }' || failed=1
}

# 200 fields, and a method of 1,600 statements over them.
wide() {
  { echo 'class Main {'; for ((k = 0; k < 200; k++)); do echo "long f$k;"; done
    echo 'public void f(long x) {'; for ((k = 0; k < 1600; k++)); do echo "f$((k % 200))=f$((k * 7 % 200))+x;"; done
    echo '} }'; } >program
}

# A method of 40 lines.
lines_of_a_method() {
  { echo 'class Main {'; echo 'long a;'; echo 'long b;'; echo 'public long f(long x) {'
    for ((k = 0; k < 20; k++)); do echo 'a = b + x;'; echo 'b = a * x;'; done
    echo 'return b;'; echo '} }'; } >program
}

wide_at_app() { wide; : >part; }
wide_at_db() { wide; printf '%s\n' 'part p upto 1000' 'db all' >part; }
few() { echo 'class Main { long n; public long f(long x) { n = n + x; return n; } }' >program; : >part; }
few_at_db() { few; printf '%s\n' 'part p upto 1000' 'db all' >part; }

# Every second line of the method is at DB.
alternating() {
  lines_of_a_method
  { echo 'part p upto 1000'; for ((k = 6; k < 45; k += 2)); do echo "db line $k"; done; } >part
}

printf '%-32s %23s %23s %6s %13s\n' '' run solo 'solo/' doublings
printf '%-32s' calls
printf ' %7s %7s %7s' 500 1000 2000 500 1000 2000
printf ' %6s %6s %6s  %s\n' run 1000 2000 'the last call'
row '2 statements at APP' few
row '2 statements at DB' few_at_db
row '1,600 statements at APP' wide_at_app
row '1,600 statements at DB' wide_at_db
row '40 lines, each second at DB' alternating
exit $failed
