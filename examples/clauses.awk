# From what abc's pdr found (its PLA) to clauses for `sdcv verify --assist`:
#   awk -f clauses.awk pair.aag pair.pla ..
# A row is a set of states that no run reaches, so that one of its values fails; the clause says that. Latches beside the
# registers are those of the monitor and those that yosys or abc added for first values.
$1 == "aag" { rows = 0; next }
$1 == ".ilb" { rows = 1; for (i = 2; i <= NF; i++) latch[i - 1] = $i; next }
!rows && /^l[0-9]/ { symbol[$2] = 1; next }
rows && $1 ~ /^[01-]+$/ && $2 == "1" {
  clause = ""
  for (i = 1; i <= length($1); i++) {
    bit = substr($1, i, 1)
    if (bit == "-") continue
    name = latch[i]
    if (!(name in symbol) || name ~ /^sdcv\.reset\[/) {   # 1 in every live cycle
      if (bit == "0") next
    } else if (name ~ /^sdcv\./) {                        # the row speaks of the monitor
      next
    } else {
      clause = clause (clause == "" ? "" : " ") name "=" (bit == "0" ? 1 : 0)
    }
  }
  if (clause != "" && !seen[clause]++) print (clause ~ /^#/ ? " " : "") clause   # a line that begins with # is a comment
}
