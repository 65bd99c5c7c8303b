# What the measuring scripts share: `program` is the built program, or the one that the first word names,
# and the present folder is a new one.
program=$(realpath "${1:-$(dirname "$0")/../crates/px_main/out/px_main}")
cd "$(mktemp -d)"
trap 'rm -rf "$PWD"' EXIT

# A text, some times over.
repeat() { yes -- "$1" | head -n "$2" | tr -d '\n'; }

# A text over and over, of that many KiB.
fill() { yes -- "$1" | tr -d '\n' | head -c $(($2 * 1024)); }

# Lines, of that many KiB.
lines() { yes -- "$1" | head -c $(($2 * 1024)); }

# The processor's milliseconds of a command over the file `program` and a job.
once() {
  local TIMEFORMAT='%3U %3S'
  { time "$program" "$1" program "$2" >text || true; } 2>&1 | awk '{ print int(1000 * ($1 + $2) + 0.5) }'
}

# The least of three.
least() { for _ in 1 2 3; do once "$1" "$2"; done | sort -n | head -n 1; }
