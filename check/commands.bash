# What the command lines of check/commands call, with the name of the program, what it makes of a file, and its words as
# $name, $made, $options, $columns and $threads. Each bash that it starts reads this.
# shellcheck shell=bash

# Runs the program with the arguments that convert a.csv, and with these.
# shellcheck disable=SC2086,SC2154  # They are words, of the environment.
convert() {
  "${home:-.}/$name" $options $columns "$@"
}

# Runs a command line as one whom permissions bind, as they do not bind root.
bound() {
  if [ "$(id -u)" = 0 ]; then
    setpriv --bounding-set=-dac_override,-dac_read_search bash -u -c "$1"
  else
    bash -u -c "$1"
  fi
}

# Prints what files hold after a command, and keeps the status of the command.
after() {
  local status=$? name
  for name in "$@"; do
    { [ -e "$name" ] && echo "[$name]" && cat "$name"; } || echo "[no $name]"
  done
  return "$status"
}

# Runs over a.csv through a pipe, with one more command before the pipe ends, and prints both statuses.
# shellcheck disable=SC2086,SC2154  # They are words, of the environment.
meanwhile() {
  local first second tries=100
  mkfifo pipe.csv
  "./$name" $options $columns pipe.csv &
  first=$!
  exec 7> pipe.csv
  cat a.csv >&7
  until [ -e "pipe.csv$made.part" ] || [ $((tries -= 1)) = 0 ]; do sleep 0.1; done
  sleep 0.5
  "$@" 7>&-
  second=$?
  exec 7>&-
  wait "$first" 2> /dev/null
  echo "statuses $? and $second"
  rm pipe.csv
}

# Runs over a pipe with all standard streams closed, and prints where their numbers lead meanwhile.
# shellcheck disable=SC2086,SC2154  # They are words, of the environment.
while_closed() {
  mkfifo pipe.csv
  "./$name" $options $columns pipe.csv <&- >&- 2>&- &
  first=$!
  exec 7> pipe.csv
  readlink "/proc/$first/fd/"{0,1,2}
  cat a.csv >&7
  exec 7>&-
  wait "$first"
}

# Kills the program that runs.
kill_run() {
  { kill -KILL "$first" && wait "$first"; } 2> /dev/null
  return 0
}

# Mounts two file systems for this process alone, each with a register that has the same number in both.
two_file_systems() {
  mkdir -p one two && mount -t tmpfs none one && mount -t tmpfs none two && cp a.csv one && cp a.csv two &&
    [ "$(stat -c %i one/a.csv)" = "$(stat -c %i two/a.csv)" ]
}

# Prints a register of so many records.
long() {
  echo id,calendar,date
  yes x,iso,1970-W01-4 | head -n "$1"
}

# Prints a register of so many records, with its seal.
sealed() {
  echo id,calendar,date,note
  yes x,iso,1970-W01-4, | head -n "$1"
  echo "END,$1"
}

# Prints what the system shows of a command that waits for more of its input, behind the table of 20,000 records: whether
# its sleeps are short ones, how many threads it has, whether it does nothing, and whether it wrote many rows at a time.
waiting() {
  local pid naps key value writes=0 tries=600 line
  local -a stat threads
  mkfifo waiting
  "$@" < waiting > table &
  pid=$!
  exec 7> waiting
  long 20000 >&7
  until [ "$(wc -l < table)" -gt 20000 ] || [ $((tries -= 1)) = 0 ]; do sleep 0.1; done
  sleep 3
  read -r naps < "/proc/$pid/timerslack_ns"
  read -r -a stat < "/proc/$pid/stat"
  threads=("/proc/$pid/task/"*)
  while read -r key value; do [ "$key" != syscw: ] || writes=$value; done < "/proc/$pid/io"
  exec 7>&-
  wait "$pid"
  line="status $?, $([ "$naps" = 5000 ] || echo 'no ')short naps, ${#threads[@]} threads"
  line+=", $([ $((stat[13] + stat[14])) -lt 150 ] && echo idle || echo busy)"
  echo "$line, $([ "$writes" -lt 5000 ] && echo many || echo few) rows a write"
}

# Runs over a.csv into a pipe that has the name of what is made of it, and prints what came through, and what it is then.
into_pipe() {
  mkfifo "a.csv$made"
  timeout 60 cat "a.csv$made" > came &
  "./$name" $options $columns a.csv
  echo "status $?"
  wait "$!"
  cat came
  [ -p "a.csv$made" ] && echo 'a pipe as before'
}
