#!/bin/sh
# Starts the prompt at this terminal, by tools/at_terminal.
#
#     crates/prompt_demo/prompt.sh [sparing|patient] [PROGRAM]
#
# With the word `sparing` the terminal is sent what differs, with `patient` also nothing while more keys are at hand, and
# else all that is painted. PROGRAM is out/prompt_demo beside this file where none is given; `rt run` leaves it there. The
# exit status is that of the prompt, or 128 and the number of the signal that ended this script.
set -eu

fail() {
    printf 'prompt.sh: %s\n' "$*" >&2
    exit 1
}

# This file itself, where it is started through symbolic links.
file=$0
while [ -L "$file" ]; do
    target=$(readlink "$file")
    case $target in
        /*) file=$target ;;
        *) file=$(dirname "$file")/$target ;;
    esac
done
folder=$(cd "$(dirname "$file")" && pwd)
way=''
case ${1:-} in
    sparing | patient)
        way=$1
        shift
        ;;
esac
program=${1:-$folder/out/prompt_demo}
case $program in
    */*) ;;
    *) program=./$program ;;
esac
[ -f "$program" ] && [ -x "$program" ] ||
    fail "no program $program: build it by (cd $folder && rt run < stdin > /dev/null)"
exec "$folder/../../tools/at_terminal" "$program" ${way:+"$way"}
