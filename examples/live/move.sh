#!/usr/bin/env bash
# Moves a queue of pictures from one session to another: what the first one dumps is the head of the second.
live() { ${COVETRIVET_PROGRAM:-./run --live} 2> /dev/null; }
first=$(printf '%s\n' 'worker resizer 1' 'submit 1 7 600' 'submit 1 7 400' 'claim resizer' 'commit resizer 2:7:300' 'dump' | live)
dumped=$(sed -n 's/^> //p' <<< "$first")
echo "$dumped"
printf '%s\n' "$dumped" 'claim resizer' 'commit resizer 2:7:200' 'count' | live
