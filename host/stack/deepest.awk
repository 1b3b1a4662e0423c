# deepest.awk: the deepest stack of each function whose name starts with PREFIX, as the compiler laid the frames out.
#   awk -v prefix=PREFIX -v call=BYTES -v leaf=BYTES -f deepest.awk MODULE.su MODULE.s
# The .su file has a frame's bytes for each function, the .s file says which calls which. A call costs `call` bytes beside the frame,
# and a function may use `leaf` bytes below its frame. No function here calls itself or calls through a pointer: either ends this with 1,
# as does a frame whose size is not fixed. What is not in the .su file is the C library's, and counts as nothing.
function fail(why) { print "deepest: " why >"/dev/stderr"; failed = 1; exit 1 }
function bare(name) { gsub(/"|@PLT/, "", name); return name }
function depth(f,    list, count, k, d, most, which) {
  if (f in known) return known[f]
  if (busy[f]) fail(f " calls itself")
  busy[f] = 1
  most = leaf
  which = ""
  count = split(calls[f], list, "\t")
  for (k = 1; k <= count; k++) if (list[k] in frame) {
    d = depth(list[k])
    if (d > most) { most = d; which = list[k] }
  }
  busy[f] = 0
  path[f] = f " " frame[f] (which == "" ? "" : ", " path[which])
  known[f] = frame[f] + call + most
  return known[f]
}
FNR == NR {
  split($0, part, "\t")
  sub(/^[^:]*:/, "", part[1])
  if (part[3] != "static") fail(part[1] " has a frame whose size is not fixed")
  frame[part[1]] = part[2]
  next
}
/^[^ \t.#\/].*:/ {
  name = $0
  sub(/:[ \t]*([#\/].*)?$/, "", name)
  name = bare(name)
  if (name in frame) here = name
  next
}
$1 == "blr" || $2 ~ /^\*/ && $1 ~ /^call/ { fail(here " calls through a pointer") }
$1 ~ /^(bl|b|callq?|jmpq?)$/ && $2 !~ /^(\.L|\*)/ { calls[here] = calls[here] (calls[here] == "" ? "" : "\t") bare($2) }
END {
  if (failed) exit 1
  for (f in frame) if (index(f, prefix) == 1) printf "%6d  %s\n", depth(f), path[f]
}
