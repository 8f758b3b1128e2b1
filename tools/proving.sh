# What ./value and hosts/build share: one lock, rt's verdict on crates, by an rt in a process group of its own, and what is said
# meanwhile. Sourced, with $root the folder of the repository; sh and bash.
#
# The lock is on crates.txt, which the caller has open as 9 and which each process that it starts keeps open. target/proving has the
# name and the process number of the one that holds it, for those that wait: $told_process, where the caller's shell is only a part.
holder=$root/target/proving
holds=
temporary=
unfinished= # a file or folder of the caller's that an interrupt removes
known=${!-} # a background process that has ended, or is not from here. Where $! is another one, an interrupt ends that one.

say_who_holds() {
  number=
  { read -r name number < "$holder"; } 2> /dev/null || :
  case $number in
    '' | *[!0-9]*) ;;
    *) [ ! -d "/proc/$number" ] || { echo "$name (process $number)"; return; } ;;
  esac
  echo 'another call' # the file is gone, or its process is
}

# Takes the lock. Whoever has to wait for it is told for whom.
lock() { # NAME
  if ! flock -n 9; then
    echo "$1: waiting for $(say_who_holds), which proves or builds in this checkout" >&2
    flock 9 & # in the background, so that an interrupt need not wait for it
    wait_for_it
    [ $ended -eq 0 ] || return $ended
  fi
  holds=yes
  { mkdir -p "${holder%/*}" && echo "$1 ${told_process:-$$}" > "$holder"; } 2> /dev/null || :
}

# Waits for the process that was started last, and has its status in $ended.
wait_for_it() {
  ended=0
  wait $! || ended=$?
  known=$!
}

# To be called before the lock goes: afterwards the file is another's.
no_longer_holds() {
  [ -z "$holds" ] || rm -f "$holder"
  holds=
}

# Whether a process, or another of its group, still runs. One that has ended and that nobody has waited for yet does not.
runs() { # PID
  [ -n "$(sed -n -e "s/^$1 .*) [^XZ] .*/runs/p" -e "s/.*) [^XZ] [0-9]* $1 .*/runs/p" /proc/[0-9]*/stat 2> /dev/null)" ]
}

# Ends a process and its group. Returns when they have ended, and so no longer keep the lock.
end() { # PID
  turns=0
  signal=TERM # processes in the background ignore SIGINT
  while runs "$1"; do
    [ $turns -lt 20 ] || signal=KILL
    kill -s $signal -- "-$1" "$1" 2> /dev/null || :
    sleep 0.1
    turns=$((turns + 1))
  done
}

# Ends what was started, and then the caller's shell, by the signal that it got.
interrupted() { # SIGNAL
  trap '' INT TERM HUP
  [ "${!-}" = "$known" ] || end $!
  remove_temporary
  rm -rf "$unfinished"
  no_longer_holds
  trap - "$1"
  kill -s "$1" $$
  exit 2
}

# From here on an interrupt ends all that is started. The shell itself must run this, and no subshell: the signal may go to it alone.
heed_interrupts() {
  for signal in INT TERM HUP; do
    trap "interrupted $signal" $signal
  done
}

# A prover that is ended leaves its temporary files behind, so they have a folder of their own.
make_temporary() {
  temporary=$(mktemp -d) && chmod 711 "$temporary" # rt runs programs as nobody where it runs as root: nobody must get through
}

remove_temporary() {
  [ -z "$temporary" ] || rm -rf "$temporary"
  temporary=
}

# The lines of crates.txt for some crates and all below them.
lines_of() { # CRATE..
  awk -v named="$*" '
    { sub(/#.*/, "") }
    split($0, half, ":") == 2 { split(half[1], word); name[++count] = word[1]; line[count] = $0; below[count] = half[2] }
    END {
      left = split(named, todo)
      while (left) {
        crate = todo[left--]
        for (i = 1; i <= count; i++) if (name[i] == crate && !taken[i]++) {
          uses = split(below[i], used)
          for (j = 1; j <= uses; j++) todo[++left] = used[j]
        }
      }
      for (i = 1; i <= count; i++) if (taken[i]) print line[i]
    }' "$root/crates.txt"
}

names_of() { # the same crates, by their names
  lines_of "$@" | sed 's/[ :].*//'
}

# Copies crates and those below them to a folder, as a repository of their own. Must-fail edits stay out: they try contracts, and no
# program hangs on them.
copy_crates() { # FOLDER CRATE..
  to=$1
  shift
  mkdir -p "$to/.git" && lines_of "$@" > "$to/crates.txt" || return
  for crate in $(names_of "$@"); do
    mkdir -p "$to/crates/$crate" || return
    for part in "$root/crates/$crate"/*; do
      case ${part##*/} in
        out | must-fail) ;;
        *) cp -RL "$part" "$to/crates/$crate" || return ;;
      esac
    done
  done
}

# Starts a command in a folder, with all that it says in a file. Its group is its own, so that an interrupt can end the provers too; it keeps
# the lock for as long as it runs.
start() { # FOLDER FILE COMMAND..
  (cd "$1" && shift 2 && TMPDIR=$temporary exec setsid "$@") > "$2" 2>&1 < /dev/null &
}

# Has rt judge crates and those below them as it judges a repository, by `rt ci`: each is proved from nothing, unless such a run has proved
# it on this machine, of the same files over the same libraries. It does so in a copy, $judged, with what it built, which stays until
# remove_temporary. So it waits for no other rt in this checkout, and nothing that other runs left here is taken over.
judge() { # NAME LOG CRATE..
  caller=$1
  log=$2
  shift 2
  make_temporary && : > "$log" || return
  judged=$temporary/judged
  copy_crates "$judged" "$@" || return
  start "$judged" "$log" rt ci
  show_progress "$caller" "$log" "$(names_of "$@" | wc -l)" $!
  wait_for_it
  [ $ended -eq 0 ] && tail -n 1 "$log" | grep -Eqx '[0-9]+ passed, 0 failed'
}

# Says which crates have been proved, as long as the process runs, and where rt waits for another run of its own.
show_progress() { # NAME LOG COUNT PID
  told=0 # this many lines
  passed=0 # this many crates
  while kill -0 "$4" 2> /dev/null; do
    show_new "$1" "$2" "$3"
    sleep 0.2 || :
  done
  show_new "$1" "$2" "$3"
}

show_new() { # NAME LOG COUNT
  for word in $(sed -n -E -e 's/^rt: ([a-z0-9_]+) proved$/proved:\1/p' -e 's/^rt: ([a-z0-9_]+) is kept: .*/kept:\1/p' \
    -e 's/^rt: ([a-z0-9_]+): another run on this machine is proving the same.*/waits:\1/p' "$2" | tail -n "+$((told + 1))"); do
    told=$((told + 1))
    case $word in
      waits:*) echo "$1: waiting for another run of rt on this machine, which proves ${word#*:}" >&2 ;;
      *) passed=$((passed + 1)) ;;
    esac
    case $word in
      proved:*) echo "$1: proved ${word#*:}, $passed of $3 crates" >&2 ;;
    esac
  done
}
