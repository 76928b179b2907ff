# What the tools written for bash have of the outside, to be sourced with their words: how they end, and what they say
# of themselves. They work in the repository's folder. (tools/outside.py is the same for those in Python.)
set -euo pipefail
trap '' PIPE
self=$(readlink -f "${BASH_SOURCE[1]}")
cd "$(dirname "$self")/.."
self=tools/${self##*/}

# fails STATUS WORD..: tells what is wrong.
fails() {
  local status=$1
  shift
  printf '%s: %s\n' "$self" "$*" >&2 || true
  exit "$status"
}

# put TEXT: puts a text to the output.
put() { printf '%s\n' "$1" 2>/dev/null || fails 4 'cannot write the output'; }

for word in "$@"; do
  [[ $word != -- ]] || break
  [[ $word != --help ]] || { put "$(sed -n '2,/^[^#]/{/^[^#]/d; s/^# \{0,1\}//; p}' "$self")"; exit 0; }
done
