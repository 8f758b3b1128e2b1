# A folder in memory for the temporary files of .ci/run, where there is room. Sourced; bash.
#
# Each check by rt copies the libraries below its crate to the folder for temporary files and removes them again. On
# disk that costs much system time, in memory hardly any. GATE_MEMORY names another folder than /dev/shm, from the root on, and
# GATE_MEMINFO another file than /proc/meminfo.

# The kB that are free where FOLDER is: the third of the numbers before the per cent. A name before them may have blanks.
free_kb() { # FOLDER
  df -Pk "$1" | sed -n -E '2s/.* [0-9]+ +[0-9]+ +([0-9]+) +[0-9]+% .*/\1/p'
}

available_kb() {
  sed -n -E 's/^MemAvailable: *([0-9]+) kB$/\1/p' "${GATE_MEMINFO:-/proc/meminfo}"
}

# No program can be started in a folder that is mounted noexec.
starts_programs() { # FOLDER
  printf '#!/bin/sh\nexit 7\n' > "$1/try" && chmod 755 "$1/try" || return 1
  "$1/try"
  [ $? -eq 7 ] && rm "$1/try"
}

# Makes a folder and prints its path; else ends with 1, prints nothing and leaves nothing, also where it is interrupted: so its name
# is known before it is made. It is open to all, as /tmp is, because rt runs programs as nobody where it runs as root.
memory_folder() (
  room=${GATE_MEMORY:-/dev/shm}
  folder=
  trap 'rm -rf "$folder"' EXIT
  [ "$(free_kb "$room")" -ge 3000000 ] && [ "$(available_kb)" -ge 6000000 ] || exit 1
  folder=$room/gate.$$.$RANDOM$RANDOM
  mkdir -m 1777 "$folder" || { folder=; exit 1; } # one that is there already is another's
  starts_programs "$folder" || exit 1
  echo "$folder" && folder= # from here on it is the caller's
) 2> /dev/null

# The folder gets another name first: a check that outlives an interrupted gate then finds no place for more files.
remove_folder() { # FOLDER, empty if there is none
  [ -z "$1" ] || { mv "$1" "$1.old"; rm -rf "$1" "$1.old"; }
}
