# The settings of a new project: how they follow from its jobs and computers, and what they mean. bsched-project reads
# this file. Times are whole seconds.
# shellcheck shell=bash

DEFAULT_JOB=10m         # how long a job takes on one processor
DEFAULT_PROCESSORS=64   # of the largest computers
DELAY=60                # request_delay
MOST_HOSTS=100000
CALL_SECONDS=$((DELAY + 3)) # between two calls of a client that wants work
# the ranges of docs/PROFILE.md, "Settings"
MOST_IN_PROGRESS=1000 MOST_TO_SEND=100 MOST_QUOTA=1000000
DAY=86400
SHOWN_PROCESSORS="1 4 16 64 256"

# Prints the seconds of a time such as 90, 90s, 10m, 2h or 3d. If it is none, or not within 1 second to 100 days, fails.
seconds_of() {
  [[ $1 =~ ^([1-9][0-9]{0,6})([smhd]?)$ ]] || return 1
  local number=${BASH_REMATCH[1]} unit=1
  case ${BASH_REMATCH[2]} in
    m) unit=60 ;;
    h) unit=3600 ;;
    d) unit=$DAY ;;
  esac
  [ $((number * unit)) -le $((100 * DAY)) ] || return 1
  echo $((number * unit))
}

# Returns whether a text is a number of processors.
is_processors() {
  [[ $1 =~ ^[1-9][0-9]{0,3}$ ]]
}

# Prints a number of seconds for people, rounded up to a whole unit.
time_text() {
  local seconds=$1 number unit
  if [ "$seconds" -lt 120 ]; then
    number=$seconds unit=second
  elif [ "$seconds" -lt 7200 ]; then
    number=$(((seconds + 59) / 60)) unit=minute
  else
    number=$(((seconds + 3599) / 3600)) unit=hour
  fi
  [ "$number" -eq 1 ] || unit=${unit}s
  echo "$number $unit"
}

at_most() {
  echo $(($1 < $2 ? $1 : $2))
}

# Prints the settings that keep a computer of this many processors busy with jobs of this many seconds.
#
# Between two calls the computer finishes some jobs, and a call brings at most max_wus_to_send new ones. So at a time it
# has jobs for its processors, and for twice the delay. A reply may bring half of that, and a day twice what it can do.
settings_for() {
  local job=$1 processors=$2 in_progress to_send quota
  in_progress=$(((processors * (job + 2 * DELAY) + job - 1) / job))
  in_progress=$(at_most "$in_progress" "$MOST_IN_PROGRESS")
  to_send=$(at_most $(((in_progress + 1) / 2)) "$MOST_TO_SEND")
  quota=$((2 * ((processors * DAY + job - 1) / job)))
  [ "$quota" -ge $((2 * in_progress)) ] || quota=$((2 * in_progress))
  quota=$(at_most "$quota" "$MOST_QUOTA")
  cat << END
# The settings of the project. They can't be changed once its tables are made.
# Those of jobs have BOINC's names, but count for a computer, and not for each of its processors.
END
  printf '%-32s # %s\n' \
    "daily_result_quota = $quota" "the most jobs of a computer on one day" \
    "max_hosts = $MOST_HOSTS" "computers of the project" \
    "max_wus_in_progress = $in_progress" "the most jobs that a computer has at a time" \
    "max_wus_to_send = $to_send" "the most new jobs of a reply to a computer" \
    'operator_key = "change-this-key"' "bsched-project puts a new key here" \
    "request_delay = $DELAY" "seconds until a computer calls again" \
    "resend_lost_results = true" "a job that a computer has lost is sent to it again"
}

# Prints the number that a file of settings has under a key, or nothing.
number_in() {
  sed -nE "s/^[[:space:]]*$2[[:space:]]*=[[:space:]]*([0-9_]+)[[:space:]]*(#.*)?$/\1/p" "$1" | tr -d _
}

# Prints how long jobs must take at least, so that the settings in a file keep a computer of this many processors busy.
# If no length suffices, fails.
least_job() {
  local file=$1 processors=$2 in_progress to_send quota delay least one
  in_progress=$(number_in "$file" max_wus_in_progress) to_send=$(number_in "$file" max_wus_to_send)
  quota=$(number_in "$file" daily_result_quota) delay=$(number_in "$file" request_delay)
  [[ $in_progress =~ ^[0-9]{1,7}$ && $to_send =~ ^[1-9][0-9]{0,6}$ && $quota =~ ^[1-9][0-9]{0,6}$ &&
    $delay =~ ^[0-9]{1,7}$ ]] || return 1
  [ "$in_progress" -gt "$processors" ] || return 1
  least=$(((2 * delay * processors + in_progress - processors - 1) / (in_progress - processors)))
  one=$(((processors * (delay + CALL_SECONDS - DELAY) + to_send - 1) / to_send))
  [ "$one" -le "$least" ] || least=$one
  one=$(((processors * DAY + quota - 1) / quota))
  [ "$one" -le "$least" ] || least=$one
  [ "$least" -ge 1 ] || least=1
  echo "$least"
}

# Prints what the settings in a file mean for computers of several sizes.
print_meaning() {
  local file=$1 processors least
  echo "What they mean, for a computer (and not for each of its processors):"
  for processors in $SHOWN_PROCESSORS; do
    local noun="processors"
    [ "$processors" -ne 1 ] || noun="processor"
    if least=$(least_job "$file" "$processors"); then
      echo "- with $processors $noun it is kept busy by jobs of $(time_text "$least") and more"
    else
      echo "- with $processors $noun it never has a job for each of them"
    fi
  done
}

# Prints the settings in a file without the operator's key, and what they mean.
show_settings() {
  echo "The settings, which can't be changed later:"
  echo
  grep -vE '^[[:space:]]*(#|$|operator_key)' "$1" | sed 's/^[[:space:]]*//'
  echo
  print_meaning "$1"
}
