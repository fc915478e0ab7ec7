# Says what came of many registers, each converted by `register --summary < FILE 2> FILE.messages`. LIST has their names,
# and JOBS, which may be left out, is what `parallel -a LIST --joblog JOBS` wrote. There is a line for each register that
# was not run or did not end with status 0; that has records refused with 1, 2 or 3, or no others; or whose rows are not
# its lines under the header, as after an open quote. The last line has the sum of all.
# Usage: awk -f examples/messages.awk LIST [JOBS]
BEGIN { FS = "\t" }
FILENAME == ARGV[1] { files[++count] = $0; next }
FNR > 1 { status[$1] = $8 ? 128 + $8 : $7 } # A job that was tried again has more lines, and the last one counts.
END {
  for (k = 1; k <= count; k++) look_at(files[k], ARGC < 3 ? 0 : k in status ? status[k] : "none")
  print whole + 0 " of " count + 0 " whole: " rows + 0 " rows, " refused + 0 " refused"
}

function look_at(file, state, line, all, said, part, lines) {
  while ((getline line < (file ".messages")) > 0) {
    all = all (all == "" ? "" : "; ") line
    said = line
  }
  close(file ".messages")
  if (state == "none") {
    print file ": not run"
  } else if (state != 0 || said !~ /^source 1: [0-9]+ rows, [0-9]+ refused/) {
    print file ": " (all == "" ? "no message" : all) (state > 1 ? ", status " state : "")
  } else {
    whole++
    split(said, part, " ")
    rows += part[3]
    refused += part[5]
    lines = -1
    while ((getline line < file) > 0) lines++
    close(file)
    if (lines != part[3] || said ~ /([(]|, )[123]: / || part[3] == part[5])
      print file ": " substr(said, 11) ", " lines " lines"
  }
}
