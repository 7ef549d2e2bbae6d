#!/bin/sh
# The search for prices and whole splits over twenty problems of each shape, which seeds make:
# microseconds, the least of three runs, and how far the bound that the search ends with stands above
# what the plan's legs deliver, in millionths of that. Least, median and greatest of each. With a
# word: the line of each problem of one run, for shapes whose name begins with it, which is shape,
# seed, microseconds of the search, bound, delivered, microseconds of the split.
set -eu
cd "$(dirname "$0")/../crates/bench_math"
rt run >/dev/null
if [ $# -gt 0 ]; then exec ./out/bench_math search "$1"; fi
for _ in 1 2 3; do ./out/bench_math search; done | awk -F'; ' '
function three(list, n,   i, j, x) {
  for (i = 2; i <= n; i++) {
    x = list[i]
    for (j = i - 1; j > 0 && list[j] > x; j--) list[j + 1] = list[j]
    list[j + 1] = x
  }
  return n ? sprintf("%8.0f %8.0f %14.0f", list[1], list[int((n + 1) / 2)], list[n]) : "none"
}
!(($1, $2) in times) {
  times[$1, $2] = $3
  splits[$1, $2] = $6
  if (!($1 in count)) order[++shapes] = $1
  seeds[$1, ++count[$1]] = $2
  gap[$1, $2] = $5 > 0 ? ($4 / $5 - 1) * 1000000 : -1
}
$3 < times[$1, $2] { times[$1, $2] = $3 }
$6 < splits[$1, $2] { splits[$1, $2] = $6 }
END {
  print "shape, problems, least, median and greatest"
  for (s = 1; s <= shapes; s++) {
    name = order[s]
    m = 0
    for (i = 1; i <= count[name]; i++) {
      us[i] = times[name, seeds[name, i]]
      whole[i] = splits[name, seeds[name, i]]
      if (gap[name, seeds[name, i]] >= 0) gaps[++m] = gap[name, seeds[name, i]]
    }
    printf "%-18s %3d  search %s  split %s  gap %s\n", name, count[name], three(us, count[name]), three(whole, count[name]), three(gaps, m)
  }
}'
