# Answers --help: prints the comment at the head of the script that sources this, and ends it.
case ${1-} in
-h | --help)
    awk 'NR > 1 { if (!/^#/) exit; sub(/^# ?/, ""); print }' "$0"
    exit
    ;;
esac
