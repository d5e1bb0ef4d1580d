# Sourced by the test scripts, which say first what their subject is. One line
# for each check; the last line, count's, is "N passed, M failed". Links that a
# script made in its folder go at its end: rt ci refuses a checkout that has one.
passed=0
failed=0
trap '[ -z "${out-}" ] || find "$out" -type l -exec rm -f {} + 2>/dev/null' EXIT
trap 'exit 1' HUP INT TERM

verdict() { # status name
    if [ "$1" -eq 0 ]; then
        passed=$((passed + 1))
        echo "ok     ${subject:+$subject: }$2"
    else
        failed=$((failed + 1))
        echo "FAILED ${subject:+$subject: }$2"
    fi
}

count() { # status 0 where all passed, and there was something
    echo "$passed passed, $failed failed"
    [ "$failed" -eq 0 ] && [ "$passed" -gt 0 ]
}
