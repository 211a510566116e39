# shellcheck shell=bash
# Whether what a script takes is there. A script sources this, and says so in these words:
#
#   needs PROGRAM WHOSE      ends the script where the program is lacking
#   has PROGRAM WHOSE WHAT   whether the program is there; where not, it says WHAT is left out
#   needs_made PATH MAKER    ends the script where a file or a folder is lacking that MAKER makes

needs() {
  command -v "$1" >/dev/null && return
  echo "$0: no $1 is there: it is of $2" >&2
  exit 1
}

has() {
  command -v "$1" >/dev/null && return
  echo "no $1 is there, which is of $2: $3"
  return 1
}

needs_made() {
  [ -e "$1" ] && return
  echo "$0: no $1 is there: $2 makes it" >&2
  exit 1
}
