#!/usr/bin/env bash
# Builds the oracle and checks it on document 01's starred cases, and on refusals, ties and panics worked out by hand.
set -euo pipefail

here=$(cd "$(dirname "${BASH_SOURCE[0]}")" && pwd)
oracle=$("$here/build.sh")
none=-9223372036854775808 # the lower bound that shuts out nothing: i64 minimum
most=9223372036854775807  # the root record's bound, and a fast bound not yet worked out: i64 maximum
all="unpatched tie rooms" # the copies that the document's figures hold for
passed=0
failed=0

# check NAME VARIANTS SETTINGS WORD...: each variant's answer begins with the first word and has every other one as a field.
check() {
  local name=$1 variants=$2 settings=$3 variant answer word
  shift 3
  for variant in $variants; do
    answer=$(echo "variant=$variant $settings" | "$oracle")
    for word in "$@"; do
      case " $answer " in
        *" $word "*) passed=$((passed + 1)) ;;
        *) failed=$((failed + 1)); echo "case $name, $variant: no '$word' in: $answer" ;;
      esac
    done
    [ "${answer%% *}" = "$1" ] || { failed=$((failed + 1)); echo "case $name, $variant: not '$1': $answer"; }
  done
}

# job MODE CUT WIDTH PAGE LOWER ITEMS [NODE_ROOM EDGE_ROOM]: the settings of a compile from the root record.
job() {
  echo "mode=$1 cut=$2 width=$3 page=$4 lower=$5 record=$4:0:$most:0:- node_room=${7:-4000} edge_room=${8:-4000} items=$6"
}

starred_cases() {
  local t=1:4,1:3,1:2 first=1:4:9:1:1 second=2:0:5:1:0 mode cut
  for cut in lel frontier; do
    for mode in exact restricted relaxed; do
      check A "$all" "$(job $mode $cut 1 0 10 -)" ok exact=1 best=0 nodes=1
    done
    check B "$all" "$(job exact $cut 1 3 $none 3:5)" ok best=5 path=1 nodes=3
    check E "$all" "$(job exact $cut 1 3 5 3:5)" ok exact=1 best=none nodes=1
    check F "$all" "$(job exact $cut 1 2 $none 2:3,2:3)" ok best=3 path=2.1 nodes=5 edges=5
    check J "$all" "$(job restricted $cut 1 2 $none $t)" ok best=7 path=4.3.1 exact=0 nodes=6 edges=5 records=-
    check M "$all" "$(job relaxed $cut 2 2 $none $t)" ok best=7 exact=1 path=4.3.1 nodes=10 edges=12
  done
  check H "$all" "$(job relaxed lel 1 2 $none $t)" ok best=9 exact=0 exact_best=none nodes=9 edges=12 records=$first,$second
  check I "$all" "$(job relaxed frontier 1 2 $none $t)" ok best=9 exact=0 exact_best=none nodes=9 edges=12 records=$second,$first
  check K "$all" "$(job relaxed lel 1 2 9 $t)" ok exact=1 best=none nodes=1
  check L "$all" "$(job relaxed lel 1 2 8 $t)" ok best=9 nodes=8 edges=8 records=$first
}

# h_lent NODE_ROOM EDGE_ROOM: case H with just these rows lent.
h_lent() {
  job relaxed lel 1 2 $none 1:4,1:3,1:2 "$1" "$2"
}

# Case H once more, with its rows counted out. Rows 1 and 2 are the root's children, 3 to 5 the layer that is squashed (in
# squash order 5, 3, 4), 6 is the merged row with the copied edges 7 to 10 (document 01's edge numbers), 7 and 8 are terminals.
case_h_with_rooms() {
  local root=2:0:0:$none:0:0:9:1:0:0:0:0 merged=2:2:$none:$none:0:0:$most:0:1:0:0:0
  local above=$root,1:1:4:$none:1:1:5:1:0:0:0:0,2:1:0:$none:2:2:5:1:0:0:0:0
  local kept=1:2:4:$none:6:6:$most:1:0:0:0:0,2:2:0:$none:4:4:$most:1:0:0:0:0,0:2:7:$none:5:5:$most:1:0:0:0
  check "H, rooms just met" rooms "$(h_lent 9 12)" ok nodes=9 edges=12
  check "H, no row for the root" rooms "$(h_lent 0 12)" refused number=11 nodes=0 edges=0 layers=- node_rows=- edge_rows=-
  check "H, no edge row" rooms "$(h_lent 9 0)" refused number=12 nodes=1 edges=0 layers=0:1 node_rows=$root edge_rows=-
  check "H, no row for the last child" rooms "$(h_lent 8 12)" refused number=11 nodes=8 edges=11 layers=0:1,1:3,3:7
  check "H, no edge for the last child" rooms "$(h_lent 9 11)" refused number=12 nodes=8 edges=11
  check "H, neither for the last child" rooms "$(h_lent 8 11)" refused number=11 nodes=8 edges=11
  check "H, no edge to a known state" rooms "$(h_lent 9 5)" refused number=12 nodes=6 edges=5
  check "H, no merged row" rooms "$(h_lent 6 6)" refused number=11 nodes=6 edges=6 layers=0:1,1:3 node_rows=$above,$kept:0
  check "H, no copied edge" rooms "$(h_lent 9 6)" refused number=12 nodes=7 edges=6 node_rows=$above,$kept:1,$merged
}

# Weights that are powers of two make all states of a layer differ: layer d has 2^d nodes.
full_layers() {
  local ten=1:1,2:1,4:1,8:1,16:1,32:1,64:1,128:1,256:1,512:1
  check "1,024 in a layer" "$all" "$(job exact lel 1 2047 $none $ten)" ok best=10 nodes=2047 edges=2046
  check "1,025 in a layer" rooms "$(job exact lel 1 2047 $none $ten,1024:1)" refused number=10 nodes=3071 edges=3070
  check "10 before 11 and 12" rooms "$(job exact lel 1 2047 $none $ten,1024:1 3071 3070)" refused number=10 nodes=3071 edges=3070
  check "no limit in the Rust" "unpatched tie" "$(job exact lel 1 2047 $none $ten,1024:1)" ok best=11 nodes=4095 edges=4094
}

# Two selections earn 5; the lighter one leaves the larger capacity.
tied_terminals() {
  check "tie" "tie rooms" "$(job exact lel 1 2 $none 1:5,2:5)" ok best=5 path=2.1 exact_best=5 exact_path=2.1
  check "tie, other order" "tie rooms" "$(job exact lel 1 2 $none 2:5,1:5)" ok best=5 path=3.0 exact_best=5 exact_path=3.0
}

# A record below the root: its path leads, new decisions follow from bottom to top.
given_record() {
  local settings="mode=exact cut=lel width=1 page=5 lower=$none record=3:7:$most:1:1 node_room=9 edge_room=9 items=2:7,3:4,1:1"
  check "record" "$all" "$settings" ok best=11 path=1.4.3 nodes=6
}

no_compile() {
  check "width 0" "$all" "$(job relaxed lel 0 2 $none 1:4,1:3,1:2)" panic 2>/dev/null
  check "no such mode" "$all" "$(job other lel 1 2 $none -)" error
  check "a field too many" "$all" "$(job exact lel 1 2 $none -) more=1" error
}

starred_cases
case_h_with_rooms
full_layers
tied_terminals
given_record
no_compile
echo "$passed passed, $failed failed"
[ "$failed" -eq 0 ]
