# A project as one file, for another machine. bsched-project reads this file.
# shellcheck shell=bash

UNITS="bsched@ bsched-tick@.timer bsched-bridge@ bsched-copy@.timer bsched-feed@.timer bsched-results@.timer bsched-page@.timer
  bsched-statistics@.timer bsched-health@.timer bsched-sweep@.timer"

# Prints the names of the units of a project.
units_of() {
  local unit
  for unit in $UNITS; do
    echo "${unit/@/@$1}"
  done
}

# Prints the units of a project that systemd starts by itself.
enabled_units() {
  local unit
  for unit in $(units_of "$1"); do
    ! systemctl is-enabled --quiet "$unit" 2> /dev/null || echo "$unit"
  done
}

# Stops the units of a project, and lets systemd start them no more.
stop_units() {
  local unit
  # the timers and the bridge first: the bridge starts the scheduler
  for unit in $(units_of "$1" | tac); do
    if systemctl is-enabled --quiet "$unit" 2> /dev/null || systemctl is-active --quiet "$unit" 2> /dev/null; then
      systemctl disable --now "$unit" 2> /dev/null || fail "$unit can't be stopped"
    fi
  done
}

# Prints the lines of a project's files that name a path outside of its folder.
paths_outside() {
  grep -HnE '^[^#]*"/' "$1"/bridge/*.toml "$1"/units.toml 2> /dev/null | grep -vF "\"$1/" | sed "s|^$1/|  |"
}

# Copies the tables of uploads of a bridge that may serve. They come before the files, so that each row has its file.
copy_upload_tables() {
  local path
  find "$1" -name uploads.db -type f -printf '%P\n' | while IFS= read -r path; do
    mkdir -p "$2/${path%/*}" && python3 -I -c '
import sqlite3, sys
from contextlib import closing
with closing(sqlite3.connect(sys.argv[1])) as tables, closing(sqlite3.connect(sys.argv[2])) as copy:
    tables.backup(copy)' "$1/$path" "$2/$path" || return 1
  done
}

# Copies the files of a project, without those that a running program writes and the tools copy.
copy_files() {
  local statuses most=1
  tar -C "$1" --exclude=./project.db* --exclude=./before-* --exclude=./bridge/bridge.db* \
    --exclude=uploads.db{,-wal,-shm,.lock} -cf - . | tar -C "$2" -xf -
  statuses=("${PIPESTATUS[@]}")
  # 1 says that a file changed or vanished meanwhile. In a project that runs uploads do so
  [ -z "$3" ] || most=0
  [ "${statuses[0]}" -le "$most" ] && [ "${statuses[1]}" -eq 0 ]
}

# Writes a project into one file. With --stop its units are stopped before, and stay so.
export_project() {
  local project=$1 target=$2 is_stopped=$3 folder=$PROJECTS/$1 outside
  [ ! -e "$target" ] || fail "$target exists, and is not replaced"
  command -v bsched-tools > /dev/null || fail "the tools are not installed: apt install bsched-tools"
  take_turn
  made=$(mktemp -d "${target%/*}/.bsched-export-XXXXXX") || fail "no folder can be made next to $target"
  mkdir "$made/$project" || fail "$made can't be written"
  enabled_units "$project" > "$made/$project/enabled-units"
  [ -z "$is_stopped" ] || stop_units "$project"
  bsched-tools copy --tables "$folder/project.db" --to "$made/$project/project.db" > /dev/null ||
    fail "the tables can't be copied"
  copy_upload_tables "$folder" "$made/$project" || fail "the tables of uploads can't be copied"
  copy_files "$folder" "$made/$project" "$is_stopped" || fail "the files can't be copied"
  if [ -e "$folder/bridge/bridge.db" ]; then
    bsched-bridge copy --config "$folder/bridge/bridge.toml" --to "$made/$project/bridge/bridge.db" > /dev/null ||
      fail "the state of the bridge can't be copied"
  fi
  (umask 077 && tar -C "$made" -czf "$made/whole" "$project") && sync "$made/whole" && mv -n "$made/whole" "$target" &&
    [ ! -e "$made/whole" ] || fail "$target can't be written" # mv -n succeeds also if it moves nothing
  outside=$(paths_outside "$folder")
  rm -rf "$made"
  made=
  print_exported "$project" "$target" "$is_stopped" "$outside"
}

print_exported() {
  echo "$2 has the project $1: keep it secret, since it has all keys. On the other machine run"
  echo
  echo "  bsched-project import ${2##*/}"
  echo
  if [ -n "$3" ]; then
    echo "The project's units are stopped here and stay so. If you start them here after all, don't start"
    echo "them there: two schedulers would answer for one project."
  else
    echo "The project still runs here. Before it runs elsewhere, export it with --stop: what is reported"
    echo "after this moment is not in the file."
  fi
  [ -z "$4" ] || printf '\n%s\n%s\n' "Not in the file are what these lines name outside of its folder, and nginx's files:" "$4"
}

# Gives the files of a project to those who have them in a new one. A link stays as it is, since it may lead anywhere.
hand_over_project() {
  local folder=$1 path
  [ ! -L "$folder/bridge" ] && hand_over "$folder" || return 1
  for path in project.db units bridge/uploads bridge/bridge.db bridge/uploads.db; do
    if [ -e "$folder/$path" ] && [ ! -L "$folder/$path" ]; then
      chown -R "$USER_NAME:" "$folder/$path" && chmod -R u=rwX,go= "$folder/$path" || return 1
    fi
  done
  path=$folder/bridge/code_sign_private
  [ -L "$path" ] || [ ! -e "$path" ] || chmod 600 "$path" || return 1
  # the folders come last: their owner can change what is in them
  [ ! -d "$folder/bridge" ] || chown "$USER_NAME:" "$folder/bridge" || return 1
  chown "$USER_NAME:" "$folder"
}

# Gives a project other ports if its own are taken here.
choose_other_ports() {
  local folder=$1 listen message
  read_ports "$folder"
  ! is_taken "$port" && ! is_taken "$listen" && return
  port=''
  choose_port
  message=$(bsched-bridge --config "$folder/bridge/bridge.toml" --set-ports "$port" $((port + 1)) 2>&1) ||
    fail "its ports can't be set: ${message#bsched-bridge: }"
  echo "Its ports are taken here, so it gets $port and $((port + 1))."
}

# Makes a project from the file of an export, and enables the units that were enabled there.
import_project() {
  local source=$1 project others units
  [ -r "$source" ] || fail "$source can't be read"
  others=$(tar -tzf "$source" 2> /dev/null) || fail "$source is no file of bsched-project export"
  project=${others%%/*}
  is_name "$project" && ! grep -qvE "^$project/" <<< "$others" && ! grep -qE '(^|/)\.\.(/|$)' <<< "$others" &&
    grep -qxF "$project/project.db" <<< "$others" || fail "$source is no file of bsched-project export"
  take_turn
  [ ! -e "$PROJECTS/$project" ] || fail "$PROJECTS/$project exists already"
  made=$(mktemp -d "$PROJECTS/.new-XXXXXX") || fail "no folder can be made in $PROJECTS"
  tar -C "$made" --strip-components=1 --no-same-owner -xzf "$source" || fail "$source can't be unpacked"
  choose_other_ports "$made"
  hand_over_project "$made" || fail "the files can't be given to $USER_NAME"
  bsched-tools doctor --tables "$made/project.db" --settings "$made/settings.toml" ||
    fail "the tables in $source are not good"
  # the user bsched may have written other names into this file
  units=$(units_of "$project" | grep -xF -f "$made/enabled-units" 2> /dev/null)
  rm -f "$made/enabled-units"
  # what its units answer must be there after a power failure
  sync -f "$made" && mv -T "$made" "$PROJECTS/$project" || fail "$PROJECTS/$project can't be made"
  made=
  sync "$PROJECTS" || fail "$PROJECTS can't be written to the disk"
  echo "$PROJECTS/$project is there."
  start_units "$project" "$units"
}

# Enables and starts units, or prints how.
start_units() {
  local project=$1 units
  units=$(tr '\n' ' ' <<< "$2")
  if [ -z "${units// /}" ]; then
    echo "None of its units was enabled: systemctl enable --now bsched@$project bsched-tick@$project.timer"
  elif [ -d /run/systemd/system ]; then
    # shellcheck disable=SC2086
    systemctl enable --now $units || fail "its units don't start: systemctl status 'bsched*@$project*'"
    echo "Its units are enabled and started: $units"
  else
    echo "Start its units: systemctl enable --now $units"
  fi
  [ ! -d "$PROJECTS/$project/bridge" ] || echo "For nginx: bsched-project nginx $project"
}
