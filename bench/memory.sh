#!/bin/sh
# The size of an archive's code and data, and the names outside it that it refers to. Ends with status 1 if one of them
# allocates memory.
set -eu
archive=$1

printf '\n### Memory of the archive\n\n'
size -t "$archive" | awk 'END {
  print "| part                 | bytes |"
  print "|----------------------|------:|"
  printf "| code and constants   | %5d |\n| data set beforehand  | %5d |\n| data zero at first   | %5d |\n", $1, $2, $3
}'

outside=$(nm "$archive" | awk 'NF == 3 { has[$3] = 1 } NF == 2 && $1 == "U" { wants[$2] = 1 }
  END { for (name in wants) if (!(name in has)) print name }' | sort)
if echo "$outside" | grep -E -x -q 'malloc|calloc|realloc|free|aligned_alloc|posix_memalign|s?brk|mmap'; then
  echo "bench: the archive refers to a function that allocates memory" >&2
  exit 1
fi
printf '\nNo heap: the only names outside it that the archive refers to are: %s.\n' "$(echo $outside)"
