#!/bin/sh
# install.sh put|remove FOLDER: puts the commands of tools/commands.txt with their manual pages below FOLDER, or removes them. What was not
# proved is refused. All is written to a folder of its own first: if that fails, FOLDER is as it was.
cd "$(dirname "$0")/.." || exit 2
. tools/commands.sh
folder=$2
new=
trap 'rm -rf ${new:+"$new"}' EXIT
trap 'exit 130' INT TERM HUP
umask 022

write() {
    mkdir -p "$folder" && new=$(mktemp -d "$folder/hz-new-XXXXXX") &&
        put_programs bin "$new/bin" && put_launchers "$new/bin" ../share/hz/tools && put_tools "$new/share/hz/tools" &&
        put_pages "$new/share/man/man1" &&
        install -d "$new/share/hz" "$folder/bin" "$folder/share/man/man1"
}

move() {
    rm -rf "$folder/share/hz" && mv "$new/share/hz" "$folder/share/hz" &&
        mv -f "$new"/share/man/man1/* "$folder/share/man/man1/" && mv -f "$new"/bin/* "$folder/bin/"
}

remove() {
    for name in $(names); do
        rm -f "$folder/bin/$name" "$folder/share/man/man1/$name.1" || return 1
    done
    rm -rf "$folder/share/hz"
}

case $1 in
    put)
        are_proved bin || exit 2
        write || { echo "hz: nothing is installed: $folder can't be written"; exit 2; }
        move || { echo "hz: not all is installed: $folder can't be written"; exit 2; }
        echo "hz: installed in $folder/bin, with manual pages: $(names | tr '\n' ' ')"
        ;;
    remove)
        remove || { echo "hz: not removed: $folder can't be written"; exit 2; }
        echo "hz: removed from $folder/bin, with manual pages: $(names | tr '\n' ' ')"
        ;;
    *)
        echo "usage: install.sh put|remove FOLDER"
        exit 2
        ;;
esac
