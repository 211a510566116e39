# shellcheck shell=bash
# What scripts share that count instructions beside C++ protobuf and nanopb. A script sources this:
#
#   needs_peers              ends the script where a package is lacking, and says which
#   instructions PROGRAM ..  what three rounds of a program take and two do not; the rounds are the
#                            argument behind the others

needs_peers() {
  local lacking=()
  command -v g++ >/dev/null || lacking+=(g++)
  command -v valgrind >/dev/null || lacking+=(valgrind)
  command -v protoc >/dev/null || lacking+=(protobuf-compiler)
  command -v protoc-gen-nanopb >/dev/null || lacking+=(nanopb)
  [ -e /usr/include/google/protobuf/message.h ] || lacking+=(libprotobuf-dev)
  [ -e /usr/include/pb_decode.h ] || lacking+=(libnanopb-dev)
  [ ${#lacking[@]} -eq 0 ] && return
  echo "lacking: apt-get install ${lacking[*]}" >&2
  exit 1
}

instructions() {
  local counts=() rounds
  for rounds in 2 3; do
    counts+=("$(valgrind --tool=callgrind --callgrind-out-file=/dev/null "$@" "$rounds" \
      2>&1 >/dev/null | awk '/Collected :/ { print $NF }')")
  done
  echo $((counts[1] - counts[0]))
}
