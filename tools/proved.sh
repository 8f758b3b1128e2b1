# The program that values case files, and whether it is proved. Sourced, with $root the folder of the repository.
#
# target/value has the program that a passed `rt ci` has built, of a copy of its crate and of those below (tools/proving.sh), the names of
# the program and of all that `rt ci` read (files), and their checksums (proved). Dates play no part: where a file has other contents, the
# program is not proved. Any call may read these; only one that holds the lock writes them, the checksums last, so that a check that fails
# or breaks off leaves none.
kept=$root/target/value
program=ginghamowl

# The names of all that rt reads of the program's crate and of those below, from the root on, behind links too; out/ of a crate has what rt
# makes, and must-fail/ what no program hangs on. A name in a crate has no blank in it.
sources() {
  (cd "$root" && find -L crates.txt $(names_of $program | sed 's,^,crates/,') \
    -regex 'crates/[^/]*/\(out\|must-fail\)' -prune -o -type f -print | LC_ALL=C sort)
}

# Checksum, length and name of each file that standard input names.
checksums() {
  (cd "$root" && xargs cksum) 2> /dev/null
}

# A file that is new is not looked for: it alone, with no other file changed, does not change the program.
is_proved() {
  [ -r "$kept/files" ] && checksums < "$kept/files" | cmp -s - "$kept/proved" 2> /dev/null
}

# Proves and builds the program. Status 0: the copy is proved of the present contents; 1: these changed meanwhile; 2: it is not.
check_once() {
  rm -f "$kept/proved"
  before=$(sources | checksums)
  if ! judge value "$kept/log" $program; then
    tail -n 20 "$kept/log" >&2
    echo 'value: the program is not proved, so there is no answer (target/value/log has all that rt said)' >&2
    remove_temporary
    return 2
  fi
  take_program
  taken=$?
  remove_temporary
  [ $taken -eq 0 ] || return 2
  [ "$(sources | checksums)" = "$before" ] || return 1
  printf '%s\n' "$(echo "target/value/$program" | checksums)" "$before" > "$kept/new" || return 2
  cut -d ' ' -f 3 "$kept/new" > "$kept/files" && mv "$kept/new" "$kept/proved" || return 2
}

take_program() {
  cp "$judged/crates/$program/out/$program" "$kept/$program.new" && mv "$kept/$program.new" "$kept/$program"
}

# Proves and builds the program, as often as the sources change meanwhile, but no more than three times.
check() {
  echo 'value: proving and building the program, which takes a few minutes the first time' >&2
  tries=0
  while [ $tries -lt 3 ]; do
    check_once
    status=$?
    [ $status -eq 1 ] || return $status
    tries=$((tries + 1))
    echo 'value: the sources changed while they were proved' >&2
  done
  return 2
}

# Another call may have proved the program while this one waited for the lock, which hosts/build takes too.
check_alone() {
  lock value || return 2
  is_proved || check
  status=$?
  no_longer_holds
  return $status
}

# Proves and builds the program, in the caller's own shell, whose traps for interrupts are the default ones afterwards. An interrupt
# ends all that was started, and then this shell, by its signal.
prove() {
  command -v rt > /dev/null || { echo 'value: the program is not proved yet, and rt, which proves it, is not installed' >&2; return 2; }
  if ! { mkdir -p "$kept" && [ -w "$kept" ]; } 2> /dev/null; then
    echo "value: the program is not proved yet, and $root cannot be written: call ./value once where it can" >&2
    return 2
  fi
  [ -r "$root/tools/proving.sh" ] || { echo "value: cannot read $root/tools/proving.sh" >&2; return 2; }
  . "$root/tools/proving.sh"
  heed_interrupts
  check_alone 9< "$root/crates.txt"
  status=$?
  trap - INT TERM HUP
  return $status
}
