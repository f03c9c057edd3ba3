# Worst static path of the functions asked for: frames along the calls of an object.
#   awk -v bytes=B -v wanted="F .." -f paths.awk FRAMES DISASSEMBLY
# FRAMES by -fstack-usage, DISASSEMBLY by objdump -dr. B: bytes of a return address that a frame does not count. A function outside the
# library (copying, division) counts as B.
FNR == NR { n = split($0, f, "\t"); s = f[1]; sub(/^[^:]*:/, "", s); frame[s] = f[n - 1]; known[s] = 1; next }
/^[0-9a-f]+ <.*>:$/ { at = $0; sub(/^[0-9a-f]+ </, "", at); sub(/>:$/, "", at); next }
/R_X86_64_(PLT32|PC32|GOTPCREL)|R_ARM_THM_(CALL|JUMP24)/ {
  t = $NF; sub(/[-+]0x[0-9a-f]+$/, "", t); sub(/^\.text\.(unlikely\.)?/, "", t)
  if (t !~ /^\.(L|rodata|data|bss)/ && !((at, t) in seen)) { seen[at, t] = 1; calls[at] = calls[at] SUBSEP t }
}
/\tcall +\*|\tblx\tr[0-9]/ { pointers++ }
function deep(x,   a, m, i, d, best) {
  if (x in memo) return memo[x]
  if (busy[x]) { again = again " " x; return 0 }
  busy[x] = 1; m = split(calls[x], a, SUBSEP)
  for (i = 1; i <= m; i++) if (a[i] != "") {
    d = deep(a[i]); if (d > best) { best = d; next_of[x] = a[i] }
  }
  busy[x] = 0; memo[x] = frame[x] + bytes + best; return memo[x]
}
END {
  m = split(wanted, w, " ")
  for (i = 1; i <= m; i++) {
    d = deep(w[i]); line = w[i] " (" frame[w[i]] + 0 ")"
    for (x = w[i]; next_of[x] != ""; ) { x = next_of[x]; if (x in known) line = line " > " x " (" frame[x] ")" }
    printf "%7d  %s\n", d, line
  }
  if (again != "") print "  recursion, counted once:" again
  if (pointers) print "  calls through a pointer, not counted: " pointers
}
