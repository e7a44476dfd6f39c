# A copy in the place of a project's tables. bsched-project reads this file.
#
# In the folder of the project its owner writes, and never root: the owner could put links there. Root checks the copy in
# a folder of its own, PROJECTS/.restore-NAME. This folder has the names of the units that ran, too: a second run after a
# kill starts them.
# shellcheck shell=bash

TABLES_FILES="project.db project.db-wal project.db-shm project.db-journal" # those that belong together
STAGED=.restored.db # the checked copy, before it gets its place
former=             # the folder for the former files, once units may be stopped
is_repeated=        # whether an earlier run was killed

# Runs a command as the owner of a project's folder.
as_owner() {
  local owner
  owner=$(stat -c %U "$PROJECTS/$name") || return 1
  if [ "$owner" = root ]; then "$@"; else runuser -u "$owner" -- "$@"; fi
}

# Writes standard input into a new file of a project's folder, which only the user of the units can read.
write_as_owner() {
  # shellcheck disable=SC2016
  as_owner sh -c 'umask 077 && rm -f "$1" && cat > "$1" && sync "$1"' sh "$1" &&
    { [ "$(stat -c %U "$PROJECTS/$name")" != root ] || chown "$USER_NAME:" "$1"; }
}

# Lists copies of the project, by the words of `bsched-tools copies`.
list_copies() {
  bsched-tools copies --project "$PROJECTS/$name/" "$@"
}

# Sets copy to the path of the copy that a word means: a path, or a name in the folder of copies. Without a word it is the
# newest one. Sets moment to that of the copy, as text. Enters /: root loads no module of the folder in which it was.
choose_copy() {
  local word=$1 line day time zone
  if [[ $word = */* ]] || [ -e "$word" ]; then
    word=$(realpath -ms -- "$word") || fail "$1 is no copy: there is no such file"
  fi
  cd / || fail "/ can't be entered" # the owner of the project may not enter the folder of root
  if [ -z "$word" ]; then
    word=$(list_copies --newest tables 2>&1) || fail "${word#bsched-tools: }: name the file of a copy"
  fi
  line=$(list_copies -- "$word" 2>&1) || fail "${line#bsched-tools: }"
  read -r day time zone _ _ _ copy <<< "$line"
  moment="$day $time $zone"
}

# Sets state_copy to the newest copy of the bridge's state, if the state file is lost and there is a copy.
choose_state() {
  local fault
  state_copy=
  is_state_lost || return 0
  state_copy=$(list_copies --newest state 2> /dev/null) && return
  state_copy=
  fault=$(list_copies 2>&1 > /dev/null) ||
    fail "the bridge's state file is lost, and its copies can't be listed: ${fault#bsched-tools: }"
}

# Returns whether a project has a bridge whose state file should be in its folder and is not.
is_state_lost() {
  local bridge=$PROJECTS/$name/bridge
  [ ! -e "$bridge/bridge.db" ] && grep -qsE '^[[:space:]]*state[[:space:]]*=[[:space:]]*"bridge\.db"' "$bridge/bridge.toml"
}

# Copies a copy of the tables into the folder of root. Ends unless it is whole and of this project.
check_tables() {
  local settings=$PROJECTS/$name/settings.toml faults fault
  [ ! -s "$copy-wal" ] ||
    fail "$copy has a log, so it is no copy of bsched-tools: make one by bsched-tools copy --tables $copy --to FILE"
  fault=$(cp -- "$copy" "$made/project.db" 2>&1) || fail "$copy can't be copied to $made: ${fault##*: }"
  faults=$(bsched-tools doctor --tables "$made/project.db" --settings "$settings" 2>&1) && return
  fault=$(grep -m 1 -F "$made/project.db: " <<< "$faults")
  fault=${fault#"$made/project.db: "}
  case $fault in
    *", an older one"*) fail "$copy can't be restored: ${fault%%: run*}: restore it by hand, then run bsched upgrade" ;;
    ?*) fail "$copy can't be restored: ${fault%%: restore a copy*}" ;;
  esac
  ! grep -qE ' is not that of the tables|the tables were made with ' <<< "$faults" ||
    fail "$copy is of another project: its settings are not those in $settings"
  fail "${faults%%$'\n'*}"
}

# Does the same with a copy of the bridge's state.
check_state() {
  local fault
  fault=$(cp -- "$state_copy" "$made/bridge.db" 2>&1) || fail "$state_copy can't be copied to $made: ${fault##*: }"
  fault=$(bsched-tools doctor --state "$made/bridge.db" 2>&1) ||
    fail "$state_copy can't be restored: ${fault#"$made/bridge.db: "}: move it away, and run this again"
}

# Returns whether systemd runs a unit, tries to start it, or failed to do so.
is_running() {
  local state
  state=$(systemctl show --property ActiveState --value "$1" 2> /dev/null)
  [ -n "$state" ] && [ "$state" != inactive ]
}

# Adds the units of a project that run to the list of an earlier run, if that was killed.
list_units() {
  local unit
  for unit in $(units_of "$name"); do
    if is_running "$unit" || grep -qsxF "$unit" "$made/units"; then echo "$unit"; fi
  done > "$made/units.new" && sync "$made/units.new" && mv -T "$made/units.new" "$made/units"
}

# Stops the units of a project and what its timers started. systemd starts them again at a boot.
stop_running() {
  local unit one
  # the timers and the bridge first: the bridge starts the scheduler
  for unit in $(units_of "$name" | tac); do
    for one in "$unit" "${unit%.timer}"; do
      ! is_running "$one" || systemctl stop "$one" 2> /dev/null || fail "$one can't be stopped"
    done
  done
}

# Starts the units that ran.
start_listed() {
  local units
  mapfile -t units < "$made/units" || return 1
  [ "${#units[@]}" -eq 0 ] || systemctl start "${units[@]}"
}

# Returns whether no program works on the tables: it would have the lock that SQLite takes.
is_free() {
  as_owner python3 -I -c '
import fcntl, os, struct, sys
try:
    file = os.open(sys.argv[1], os.O_RDWR)
except OSError:
    sys.exit(0)
fcntl.fcntl(file, fcntl.F_OFD_SETLK, struct.pack("hhqqi4x", fcntl.F_WRLCK, os.SEEK_SET, 1 << 30, 512, 0))
' "$PROJECTS/$name/project.db" 2> /dev/null
}

# Moves files of a folder into another one, which is made. What is not there is left out.
move_files() {
  local from=$1 to=$2 file
  as_owner mkdir -p -m 700 "$to" || return 1
  for file in "${@:3}"; do
    if [ -e "$from/$file" ] || [ -L "$from/$file" ]; then as_owner mv -T "$from/$file" "$to/$file" || return 1; fi
  done
  as_owner sync "$to" "$from"
}

# Moves the present files away, and puts the copy into their place. The log goes after the file, and comes back before it:
# the scheduler starts with a file alone, but not with a log alone.
replace_tables() {
  local folder=$PROJECTS/$name bridge=$PROJECTS/$name/bridge
  # shellcheck disable=SC2086
  move_files "$folder" "$former" $TABLES_FILES || return 1
  if [ -n "$state_copy" ]; then
    move_files "$bridge" "$former/bridge" bridge.db-wal bridge.db-shm &&
      as_owner mv -T "$bridge/$STAGED" "$bridge/bridge.db" && as_owner sync "$bridge" || return 1
  fi
  as_owner mv -T "$folder/$STAGED" "$folder/project.db" && as_owner sync "$folder"
}

# Writes the checked copies into the folder of the project.
stage() {
  local folder=$PROJECTS/$name fault
  fault=$(write_as_owner "$folder/$STAGED" 2>&1 < "$made/project.db") ||
    fail "the copy can't be written to $folder: ${fault##*: }"
  if [ -n "$state_copy" ]; then
    fault=$(write_as_owner "$folder/bridge/$STAGED" 2>&1 < "$made/bridge.db") ||
      fail "the copy can't be written to $folder/bridge: ${fault##*: }"
  fi
}

# Ends a restore that failed: the former files get their places again, unless the copy has its place already.
take_back() {
  local folder=$PROJECTS/$name line="the former files are in their place, and the units that ran are started"
  if [ -z "$former" ]; then
    line=
    [ -z "$is_repeated" ] || keep_list
  elif [ ! -e "$folder/$STAGED" ]; then
    line="the copy is in its place, and the former files are in $former: run systemctl start $(tr '\n' ' ' < "$made/units")"
  elif ! put_back; then
    line="look for the former files in $folder and $former, and run this again"
    keep_list
  fi
  as_owner rm -f "$folder/$STAGED" "$folder/bridge/$STAGED"
  [ -z "$line" ] || echo "bsched-project: ${line% }" >&2
}

# Keeps the names of the units that ran, for the next run.
keep_list() {
  rm -f "$made/project.db" "$made/bridge.db"
  made=
}

# Puts the former files into their places, and starts the units that ran.
put_back() {
  local folder=$PROJECTS/$name
  if [ -d "$former" ]; then
    # shellcheck disable=SC2046
    move_files "$former" "$folder" $(tr ' ' '\n' <<< "$TABLES_FILES" | tac) || return 1
    # a log of a lost state file stays away from the copy of the state
    [ ! -e "$folder/bridge/$STAGED" ] || [ ! -d "$former/bridge" ] ||
      move_files "$former/bridge" "$folder/bridge" bridge.db-wal bridge.db-shm || return 1
    as_owner find "$former" -depth -type d -empty -delete
  fi
  start_listed
}

# Ends if a cluster would start the units again while they are stopped.
check_cluster() {
  [ -e "$PROJECTS-pair/$name/options" ] && systemctl is-active --quiet pacemaker 2> /dev/null || return 0
  [ "$(crm_attribute --name maintenance-mode --query --quiet 2> /dev/null)" = true ] ||
    fail "the cluster would start $name again: first crm configure property maintenance-mode=true, and false afterwards"
}

# Makes the folder of root, with the names of the units that run.
open_work() {
  made=$PROJECTS/.restore-$name
  if [ -e "$made/units" ]; then is_repeated=1; fi
  undo=take_back
  [ -d "$made" ] || mkdir -m 700 "$made" || fail "no folder can be made in $PROJECTS"
  list_units || fail "$made can't be written"
}

# Puts a copy into the place of a project's tables.
restore_project() {
  local copy moment state_copy
  command -v bsched-tools > /dev/null || fail "the tools are not installed: apt install bsched-tools"
  take_turn
  check_cluster
  choose_copy "$1"
  choose_state
  open_work
  echo "Restoring $copy, of $moment."
  check_tables
  [ -z "$state_copy" ] || check_state
  stage
  former=$PROJECTS/$name/before-$(date -u +%Y%m%dT%H%M%S.%3NZ)
  stop_running
  is_free || fail "a program has $PROJECTS/$name/project.db: end it first"
  replace_tables || fail "the files in $PROJECTS/$name can't be moved"
  start_listed || fail "its units don't start: systemctl status 'bsched*@$name*'"
  print_restored
  undo=
  rm -rf "$made"
}

# Prints what was done, and what the operator does next.
print_restored() {
  local units bridge=
  units=$(tr '\n' ' ' < "$made/units")
  echo "$copy is in the place of the tables."
  if as_owner rmdir "$former" 2> /dev/null; then
    echo "There were no former files."
  else
    echo "The former files are in $former."
  fi
  if [ -n "$units" ]; then
    echo "Started again: ${units% }"
  else
    [ ! -d "$PROJECTS/$name/bridge" ] || bridge=" bsched-bridge@$name"
    echo "None of its units ran. To start them: systemctl start bsched@$name$bridge bsched-tick@$name.timer"
  fi
  echo
  echo "What came after the copy is forgotten:"
  echo
  echo "- Take a copy at once, since the tools read the newest one: bsched-tools copy --project $name"
  echo "- Import again what you imported since. A batch of submit comes again by the same command."
  echo "- Clients need nothing. They abort jobs that the tables don't know."
  if [ -n "$state_copy" ]; then
    echo "- The bridge's state file was lost. $state_copy is in its place."
  elif is_state_lost; then
    echo "- The bridge has no state file, and there is no copy of one. It makes a new one."
  elif [ -d "$PROJECTS/$name/bridge" ]; then
    echo "- The bridge keeps its state file, and imports its accounts again."
  fi
  echo "- Begin a new cursor of results: remove $PROJECTS/$name/units/results/cursor."
}
