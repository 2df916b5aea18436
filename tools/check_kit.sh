#!/bin/sh
# check_kit.sh: looks for the Rattle kit. Without one, or with one that is too old, or without Python, a line says what is missing, and the
# status is 2.
oldest=rattle-kit-13b

missing() {
    echo "hz: $*"
    exit 2
}

command -v python3 > /dev/null || missing "python3 is not on the path: the Rattle kit needs it"
command -v rt > /dev/null || missing "rt is not on the path: the Rattle kit is needed, $oldest or later"
kit=$(rt version 2>&1 | head -n 1)
name=${kit%% *}
number=$(expr "$name" : 'rattle-kit-\([0-9]\{1,9\}\)[a-z]*$') ||
    missing "'rt version' says '$kit': the Rattle kit is needed, $oldest or later"
letter=${name##*[0-9]}
if [ "$number" -lt 13 ] || { [ "$number" = 13 ] && [ "$(expr "${letter:-a}" '<' b)" = 1 ]; }; then
    missing "$name is too old: $oldest or later is needed"
fi
