#!/usr/bin/env bash
# A worker in ten lines of shell: it takes pictures from stage 1, halves their bytes, and puts them into stage 2.
coproc live { ${COVETRIVET_PROGRAM:-./run --live} 2> /dev/null; }
ask() { echo "$1" >&"${live[1]}"; read -r answer <&"${live[0]}"; echo "$answer"; }
echo 'worker resizer 1' >&"${live[1]}"
for bytes in 600 400 250; do ask "submit 1 7 $bytes"; done
ask 'claim resizer'
while [[ $answer =~ body\ 7:([0-9]+) ]]; do
  ask "commit resizer 2:7:$((BASH_REMATCH[1] / 2))"
  ask 'claim resizer'
done
ask 'count'
