# For the scripts of bench/: builds the program NAME if it is missing or older than its sources, and sets $program to its path,
# or to $PROGRAM if that is set.
use_program() {
  program=${PROGRAM:-$top/crates/$1/out/$1}
  [ -n "${PROGRAM-}" ] || "$top/tools/build" "$1" || exit 1
}

# Prints how many instructions a command takes, or nothing if they can't be counted. A string instruction that repeats counts
# once, as a processor counts it; callgrind counts each byte of it.
instructions_of() {
  command -v valgrind >/dev/null || return 0
  valgrind --tool=exp-bbv --instr-count-only=yes --bb-out-file=/dev/null "$@" 2>&1 >/dev/null |
    awk '/Total instructions/ { sum += $NF } END { print sum }'
}
