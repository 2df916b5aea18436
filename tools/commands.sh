# commands.sh: what tools/commands.txt says, for the scripts that install, release and try. A shell reads it at the top of the repository.

# names [KIND]: the commands, or those of a kind, program or tool
names() {
    sed -n "s/^\(hz[a-z_]*\) ${1:-[a-z]*} .*/\1/p" tools/commands.txt
}

# parts TOOL: the files that it is made of
parts() {
    for part in $(sed -n "s/^$1 tool //p" tools/commands.txt); do
        find "tools/$part" -name __pycache__ -prune -o -type f -print
    done
}

# launcher TOOL FOLDER: a script that runs the tool, whose files are in FOLDER seen from the script's own folder
launcher() {
    cat << END
#!/bin/sh
# Runs the tool $1. The programs that are beside this file come first on the path.
here=\$(dirname "\$(realpath "\$0")") || exit 2
command -v python3 > /dev/null || { echo "$1: python3 is not on the path" >&2; exit 2; }
PATH=\$here:\$PATH
export PATH
exec python3 -B "\$here/$2/$(sed -n "s/^$1 tool \([^ ]*\).*/\1/p" tools/commands.txt)" "\$@"
END
}

# are_proved FOLDER: each program in the folder is the one that was proved and built there, by the sum that was noted then
are_proved() {
    for listed in $(names program); do
        [ -x "$1/$listed" ] || { echo "hz: $1/$listed is not there; make proves and builds it"; return 1; }
        if ! (cd "$1" && sha256sum --status -c "built/$listed.sha256" 2> /dev/null); then
            echo "hz: $1/$listed is not what make proved and built; it is not installed or released"
            return 1
        fi
    done
}

# put_programs FROM BIN: puts the programs, which are in FROM, into BIN
put_programs() {
    for listed in $(names program); do
        install -D -m 755 "$1/$listed" "$2/$listed" || return 1
    done
}

# put_launchers BIN FOLDER: puts a script for each tool into BIN; the files of the tools are in FOLDER seen from there
put_launchers() {
    install -d "$1" || return 1
    for listed in $(names tool); do
        launcher "$listed" "$2" > "$1/$listed" && chmod 755 "$1/$listed" || return 1
    done
}

# put_tools FOLDER: puts the files of the tools into FOLDER
put_tools() {
    for listed in $(names tool); do
        for file in $(parts "$listed"); do
            install -D -m 644 "$file" "$1/${file#tools/}" || return 1
        done
    done
}

# put_pages FOLDER: puts the manual pages into FOLDER
put_pages() {
    for listed in $(names); do
        install -D -m 644 "man/$listed.1" "$1/$listed.1" || return 1
    done
}
