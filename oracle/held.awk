# Holds our answers to a list of calls to recorded ones, for where there is no Rust: awk -v full=F -v what=W -f held.awk CALLS OURS
# RECORDED. With full=1 each answer has to be the recorded one; else each recorded line has to stand in ours, in order, and a first line
# that is a word alone says only that an answer begins (docs/TRACE.md). The figures of the papers that stand behind a call, `#=`, `#!`
# and `#:`, are held to our answer as `oracle expect` does it. A line `#> NAME` says which list begins there. Ends with counts by call
# and outcome. Exit status: 0 all equal, 1 not. Keeps one answer of each, and the last records.

function is_head(line) { return line ~ /^(created|polled|processed|was_reset|changed|got|masked|optioned)( |$)/ }
function word(line) { sub(/ .*/, "", line); return line }

# Goes on to the next line of a file that is no comment and not empty.
function go_on(file,   line) {
  while ((getline line < file) > 0) {
    number[file]++
    if (line != "" && line !~ /^#/) { ahead[file] = line; return }
  }
  ahead[file] = ""
}

# Reads the next answer of a file; how many lines it has.
function next_answer(file, lines,   n) {
  for (n = 0; ahead[file] != "" && (n == 0 || !is_head(ahead[file])); go_on(file)) lines[++n] = ahead[file]
  return n
}

# Where we are: the line, of which list, in which section.
function place() { return "line " at " of " (name == "" ? "the list" : name) (title == "" ? "" : ", \"" title "\"") }

function differ(why,   k) {
  print "the first difference, at call " calls ", " place() ": " why
  print "the last records before it, from the last `start` on, and itself:\n"
  for (k = begun > records - 19 ? begun : records - 19; k <= records; k++) print last[k % 20]
  print "\nboth answers to it, what is equal once:\n"
  beside()
  print "\n1 difference, the first, and looked for no further; equal until then: " calls - 1 " calls"
  status = 1
  exit
}

function beside(   i, j, k, later) {
  i = j = 1
  while (i <= theirs_count || j <= ours_count) {
    if (i <= theirs_count && j <= ours_count && theirs[i] == ours[j]) { print "          " ours[j]; i++; j++; continue }
    later = 0
    for (k = j; k <= ours_count; k++) if (i <= theirs_count && ours[k] == theirs[i]) later = 1
    if (i <= theirs_count && !later) print "recorded: " theirs[i++]
    if (j <= ours_count) print "ours:     " ours[j++]
  }
}

# Whether the recorded lines stand in ours, in order.
function stands(   i, j) {
  i = 1
  for (j = theirs[1] !~ / / ? 2 : 1; j <= theirs_count; j++) {
    while (i <= ours_count && ours[i] != theirs[j]) i++
    if (i++ > ours_count) return 0
    lines++
  }
  return 1
}

function same(   j) {
  for (j = 1; j <= ours_count && ours[j] == theirs[j]; j++) lines++
  return ours_count == theirs_count && j > ours_count
}

# A figure that does not hold, or cannot be held.
function refuse(why,   k) {
  print place() ": " why
  print "the figure: " record
  if (answered_last) print "our answer:\n"
  for (k = 1; answered_last && k <= ours_count; k++) print "          " ours[k]
  print "\n1 figure of the papers, the first, and looked for no further; held until then: " figures + 0
  status = 1
  exit
}

# One line of figures: words that stand in our answer (`#=`) or don't (`#!`), or a whole line (`#:`), several of them in order.
function hold(line,   kind, n, k, j, words, pieces, there) {
  kind = substr(line, 2, 1)
  line = substr(line, 3)
  sub(/^[ \t]+/, "", line)
  if (!answered_last) refuse("a figure behind no call")
  n = split(line, words, /[ ]/)
  for (k = 1; k <= n; k++) if (words[k] == "") n = 0
  if (!n) refuse("a figure without a word, or with two spaces")
  if (kind == ":") {
    for (j = from; j <= ours_count && ours[j] != line; j++) ;
    if (j > ours_count) refuse("not so: no such line in our answer" (from > 1 ? ", behind the line before" : ""))
    from = j + 1
    figures++
    return
  }
  for (j = 1; j <= ours_count; j++) {
    k = split(ours[j], pieces, /[ ]/)
    for (; k; k--) there[pieces[k]]
  }
  for (k = 1; k <= n; k++) {
    if ((words[k] in there) != (kind == "=")) refuse("not so: `" words[k] "` " (kind == "=" ? "is not" : "stands") " in our answer")
    figures++
  }
}

function count(call,   n, key) {
  n = match(ours[1], / number=[0-9]+/) ? substr(ours[1], RSTART + 8, RLENGTH - 8) : 0
  key = word(call) " " n
  if (key == "poll 0") key = key (ours[2] ~ /^sent length=0 / ? ", no message" : ", a message")
  if (n == 9 || word(call) == "new" && n >= 2 && n <= 6) defined[key]++; else answered[key]++
}

function print_counts(title, counts,   key, sum, sorted) {
  for (key in counts) sum += counts[key]
  if (!sum) return
  print title
  fflush()
  sorted = "sort"
  for (key in counts) print "  " key ": " counts[key] | sorted
  close(sorted)
  print "  " sum " in all"
}

BEGIN {
  list = ARGV[1]; own = ARGV[2]; recorded = ARGV[3]
  go_on(own); go_on(recorded)
  while ((getline record < list) > 0) {
    at++
    if (record ~ /^#> /) { name = substr(record, 4); title = ""; at = answered_last = 0 }
    if (record ~ /^# == /) title = substr(record, 6)
    if (record ~ /^#[=!:]/) hold(record)
    if (record == "" || record ~ /^#/) continue
    answered_last = 0
    last[++records % 20] = record
    if (word(record) == "start" || records == 1) begun = records
    if (word(record) !~ /^(new|poll|process|reset|add_address|drop_address|add_route|drop_route|get|mask|option)$/) continue
    calls++
    ours_count = next_answer(own, ours)
    theirs_count = next_answer(recorded, theirs)
    if (!ours_count) differ("ours has no answer")
    if (full && !theirs_count) differ("no answer is recorded")
    if (theirs_count && word(theirs[1]) != word(ours[1])) differ("the recorded answer is not one to this call, near line " number[recorded])
    if (theirs_count && !(full ? same() : stands())) differ("our answer is not the recorded one")
    if (theirs_count && (theirs_count > 1 || theirs[1] ~ / /)) with++; else without++
    count(record)
    answered_last = from = 1
  }
  theirs_count = next_answer(recorded, theirs); ours_count = next_answer(own, ours)
  if (theirs_count || ours_count) differ("an answer more than there are calls")
  if (!calls) { print "no calls to compare"; status = 2; exit }
  print_counts("calls by outcome:", answered)
  print_counts("refused by definition, 9 of any call and 2 to 6 of `new`, which the Rust does not have:", defined)
  print what ": " lines + 0 " lines to " with + 0 " calls; " without + 0 " calls without"
  if (full || figures) print figures + 0 " figures of the papers held"
  print "0 differences in " calls " calls"
  exit
}
END { exit status }
