# Makes a plan of windows: awk -v n=STATIONS -v rounds=ROUNDS -f examples/windows.awk FILE.windows > FILE.plan
# A line has two stations that hear each other, the first round and the last; windows of one pair must not overlap.
/^[0-9]/ {
  for (u = $3; u <= $4; u++) {
    mask[u, $1] += 2 ^ $2
    mask[u, $2] += 2 ^ $1
  }
}
END {
  printf "N%9d\n", n
  for (u = 1; u <= rounds; u++) {
    printf "R"
    for (p = 0; p < n; p++) printf "%9d", mask[u, p]
    print ""
  }
}
