# What the scripts share; each sources it first. Where the first word is --help or -h, the comment at the head of the script is
# written and the script ends. Statuses: 2 where a word is of another form, 1 where something that it needs is not there.
case ${1:-} in
  -h | --help)
    sed -n '2,${/^#/!q;s/^# \{0,1\}//p}' "$0"
    exit
    ;;
esac

# Ends where one of the commands is not installed.
need() {
  local tool
  for tool in "$@"; do
    command -v "$tool" >/dev/null || { echo "$(basename "$0"): $tool is not installed" >&2; exit 1; }
  done
}

# Ends where the word is no number from 1 on.
need_number() {
  [[ $1 =~ ^[1-9][0-9]{0,8}$ ]] || { echo "$(basename "$0"): not a number from 1 on: $1 (--help tells the use)" >&2; exit 2; }
}

# Ends where more words stand there than are taken: need_words MOST "$@"
need_words() {
  [ $(($# - 1)) -le "$1" ] || { echo "$(basename "$0"): too many words (--help tells the use)" >&2; exit 2; }
}
